//! BuDDy's time for the same reordering: the diagram is written to the program
//! made of buddy.c, which prints its least time and its numbers of nodes.

use std::ffi::OsStr;
use std::fmt::Write as _;
use std::io::Write as _;
use std::process::{Command, Stdio};

use crate::generate::{Buffers, Case};
use crate::limits::{RECORD_SIZE, ROOT_SIZE};

pub fn microseconds(program: &OsStr, case: &Case, repetitions: usize) -> Result<f64, String> {
    let mut child = Command::new(program)
        .arg(repetitions.to_string())
        .stdin(Stdio::piped())
        .stdout(Stdio::piped())
        .spawn()
        .map_err(|error| format!("cannot start {}: {error}", program.to_string_lossy()))?;
    let mut input = child.stdin.take().expect("its input is piped");
    let written = input.write_all(text(case).as_bytes());
    drop(input);
    let output = child
        .wait_with_output()
        .map_err(|error| error.to_string())?;
    if !output.status.success() {
        return Err(format!("ended with {}", output.status));
    }
    written.map_err(|error| error.to_string())?;

    let printed = String::from_utf8_lossy(&output.stdout);
    let fields: Vec<&str> = printed.split_whitespace().collect();
    let [time, before, after] = fields[..] else {
        return Err(format!("printed {printed:?}"));
    };
    let nodes = [&case.before, &case.after].map(|buffers| buffers.used().to_string());
    if [before, after] != nodes {
        return Err(format!("has {before} and {after} nodes, not {nodes:?}"));
    }
    time.parse().map_err(|_| format!("printed {printed:?}"))
}

/// Numbers of variables, records and roots; order; target; records as variable,
/// low and high, with children first; roots.
fn text(case: &Case) -> String {
    let Buffers {
        table,
        roots,
        order,
        ..
    } = &case.before;
    let records: Vec<&[u8]> = table.chunks_exact(RECORD_SIZE).collect();
    let mut sorted = Vec::new();
    for &variable in order.iter().rev() {
        sorted.extend((0..records.len()).filter(|&number| records[number][0] == variable));
    }
    let mut place = vec![0; records.len()];
    for (position, &number) in sorted.iter().enumerate() {
        place[number] = position + 2;
    }
    let reference = |bytes: &[u8]| match u16::from_le_bytes([bytes[0], bytes[1]]) {
        constant @ (0 | 1) => constant as usize,
        r => place[r as usize - 2],
    };

    let mut text = String::new();
    let mut line = |numbers: &[usize]| {
        for number in numbers {
            write!(text, "{number} ").expect("a string takes all");
        }
        text.push('\n');
    };
    let wide = |bytes: &[u8]| bytes.iter().map(|&b| b as usize).collect::<Vec<_>>();
    line(&[order.len(), sorted.len(), case.before.positions()]);
    line(&wide(order));
    line(&wide(&case.target));
    for number in sorted {
        let record = records[number];
        line(&[
            record[0] as usize,
            reference(&record[2..4]),
            reference(&record[4..6]),
        ]);
    }
    line(
        &roots
            .chunks_exact(ROOT_SIZE)
            .map(reference)
            .collect::<Vec<_>>(),
    );
    text
}
