//! Several inputs, one after another.

use crate::user::prelude::*;

use crate::show::output::Printer;
use crate::show::program::options::{Options, OutputFormat};
use crate::show::program::run::{Ended, run_next};
use crate::streams::{Reader, Writer};
use crate::tests::data::Format;
use crate::tests::shown::show::runs::{all_in, counted_in, file_of_first, shown};
use crate::user::Fail;

// The output for inputs, and the worst end.
fn shown_each(options: &Options<'_>, inputs: &[(&str, &[u8])]) -> Result<(Vec<u8>, Ended), Fail> {
    let mut written = Vec::new();
    let mut writer = Writer::new(&mut written);
    let mut printer = Printer::new(options);
    let mut worst = Ended::well();
    for (name, input) in inputs {
        printer.restart();
        printer.put_name(*name)?;
        worst = worst.or_worse(run_next(&mut printer, &mut Reader::new(*input), &mut writer));
    }
    printer.restart();
    printer.put_summary()?;
    let _ = printer.write(&mut writer);
    Ok((written, worst))
}

// Texts, one after the other.
fn joined(texts: &[&[u8]]) -> Result<Vec<u8>, AllocError> {
    let mut all = Vec::new();
    for text in texts {
        all.try_extend(*text)?;
    }
    Ok(all)
}

const TEXT: &[u8] = b"A text that isn't hex.\n";

#[test]
fn each_has_its_name() -> Result<(), Fail> {
    let (a, b) = (file_of_first(2, Format::Microseconds, false)?, file_of_first(3, Format::Stream, false)?);
    let inputs: [(&str, &[u8]); 3] = [("a", &a), ("text", TEXT), ("b\u{1b}", &b)];
    for form in [OutputFormat::Outline, OutputFormat::Lines(false)] {
        let options = all_in(form);
        let (one, other) = (shown(&options, &a), shown(&options, &b));
        let wanted = joined(&[b"==> a <==\n", &one.written, b"==> b\\x1b <==\n", &other.written])?;
        let (written, worst) = shown_each(&options, &inputs)?;
        assert!(written == wanted && worst.status() == 2);
    }
    Ok(())
}

#[test]
fn json_has_no_names() -> Result<(), Fail> {
    let options = all_in(OutputFormat::Json);
    let a = file_of_first(2, Format::Microseconds, false)?;
    let one = shown(&options, &a);
    let (written, worst) = shown_each(&options, &[("a", &a), ("a", &a)])?;
    assert!(written == joined(&[&one.written, &one.written])? && worst.status() == 0);
    Ok(())
}

#[test]
fn a_summary_counts_all() -> Result<(), Fail> {
    let options = counted_in(OutputFormat::Lines(false));
    let a = file_of_first(2, Format::Microseconds, false)?;
    let (written, _) = shown_each(&options, &[("a", &a), ("b", &a)])?;
    let text = core::str::from_utf8(&written)?;
    assert!(text.contains("\n  4 messages\n"), "{text}");
    assert!(text.split("summary\n").count() == 2, "{text}");
    Ok(())
}
