//! Messages of which it is known whether they are canonical, and what the check of each list returns.

use crate::rows::{bytes_of, rows};
use conjareho::tc::{
    canon_action, canon_action_options, canon_actions, canon_lse, canon_mpls, canon_options, canon_stats2,
    is_canonical_action, is_canonical_tc,
};

#[test]
fn messages() {
    let rows = rows(include_str!("canonical.txt"));
    assert_eq!(rows.len(), 102);
    for (section, row) in rows {
        let [name, hex, answer] = row[..] else { panic!("{row:?}") };
        let is_canonical = if section == "tc" { is_canonical_tc } else { is_canonical_action };
        assert_eq!(is_canonical(&bytes_of(hex)), answer == "yes", "{name}");
    }
}

#[test]
fn lists() {
    let limit = [8, 0, 2, 0, 5, 0, 0, 0];
    assert!(canon_options(&limit, b"fq_codel"));
    assert!(!canon_options(&limit, b"sfq"));
    assert!(canon_options(&[], b"bpf"));
    let kind = [8, 0, 1, 0, 110, 97, 116, 0];
    assert!(canon_action(&kind));
    assert!(!canon_action(&[]));
    assert!(canon_actions(&[]));
    assert!(!canon_actions(&kind));
    assert!(canon_action_options(&[5, 0, 10, 0, 1, 0, 0, 0], b"tunnel_key"));
    assert!(!canon_action_options(&[5, 0, 10, 0, 2, 0, 0, 0], b"tunnel_key"));
    assert!(canon_action_options(&[5, 0, 10, 0, 2, 0, 0, 0], b"gact"));
    assert!(canon_stats2(&[7, 0, 4, 0, 1, 2, 3, 0], b"htb"));
    assert!(!canon_stats2(&[7, 0, 4, 0, 1, 2, 3, 0], b"fq_codel"));
    assert!(canon_mpls(&[4, 0, 1, 128]));
    assert!(!canon_mpls(&[4, 0, 1, 0]));
    assert!(canon_lse(&[8, 0, 5, 0, 255, 255, 15, 0]));
    assert!(!canon_lse(&[8, 0, 5, 0, 0, 0, 16, 0]));
}

/// A message that is cut is canonical only between its attributes: the kind fq_codel, and a limit of 10240.
#[test]
fn cut_off() {
    let bytes =
        bytes_of("000000000200000000000100ffffffff00000000 0d00010066715f636f64656c00000000 0c0002000800020000280000");
    for n in 0..=48 {
        assert_eq!(is_canonical_tc(&bytes[..n]), [20, 36, 48].contains(&n), "{n}");
    }
}
