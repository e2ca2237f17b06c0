//! `tcshow --time local`: times in the time zone that `TZ` says, as `TZ=ZONE date -d @1764028800 +%T` of coreutils prints them.

use std::process::{Command, Output};

fn shown(zone: &str) -> Output {
    let mut tcshow = Command::new(env!("CARGO_BIN_EXE_tcshow"));
    tcshow.args(["--example", "--time", "local"]).env("TZ", zone).output().expect("tcshow runs")
}

fn first_time(zone: &str) -> String {
    let written = String::from_utf8(shown(zone).stdout).expect("a text");
    written.split(' ').next().unwrap_or_default().to_owned()
}

#[test]
fn of_rules() {
    assert_eq!(first_time("CET-1CEST,M3.5.0,M10.5.0/3"), "01:00:00.123456789");
    assert_eq!(first_time("<-05>5"), "19:00:00.123456789");
    assert_eq!(first_time(""), "00:00:00.123456789");
    assert_eq!(first_time("UTC"), "00:00:00.123456789");
}

/// Where there is no database of zones, such a name is no zone.
#[test]
fn of_names() {
    if std::path::Path::new("/usr/share/zoneinfo/America/New_York").is_file() {
        assert_eq!(first_time("America/New_York"), "19:00:00.123456789");
        assert_eq!(first_time(":Asia/Kathmandu"), "05:45:00.123456789");
    }
}

#[test]
fn of_no_zone() {
    for zone in ["Nowhere/Such", "/etc/passwd", "Such"] {
        let ended = shown(zone);
        assert_eq!((ended.status.code(), ended.stdout.is_empty()), (Some(2), true), "{zone}");
        let said = format!("tcshow: TZ={zone}: the time zone is not in the database\n");
        assert_eq!(String::from_utf8(ended.stderr).as_deref(), Ok(said.as_str()));
    }
}
