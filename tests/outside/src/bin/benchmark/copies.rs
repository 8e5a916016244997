//! The bytes that are copied, from the binary `copied` that stands beside this one: it counts what memcpy, memmove and memset do.
use outside::tables::grouped;
use std::env;
use std::process::Command;

/// The figures of one workload, and the numbers of mappings at which they hold.
struct Row {
    workload: String,
    counts: Vec<String>,
    figures: Vec<String>,
}

fn lines() -> Result<String, String> {
    let beside = env::current_exe().map_err(|e| e.to_string())?.with_file_name("copied");
    let output = Command::new(&beside).output().map_err(|e| format!("copied is not beside benchmark: {e}"))?;
    if output.status.success() {
        Ok(String::from_utf8_lossy(&output.stdout).into_owned())
    } else {
        Err(format!("copied: {}", String::from_utf8_lossy(&output.stderr)))
    }
}

/// Neighbouring lines with the same figures are one row.
fn rows(lines: &str) -> Vec<Row> {
    let mut rows: Vec<Row> = Vec::new();
    for line in lines.lines() {
        let mut words = line.split('\t').map(str::to_string);
        let (Some(workload), Some(count)) = (words.next(), words.next()) else {
            continue;
        };
        let figures: Vec<String> = words.collect();
        match rows.last_mut() {
            Some(last) if (&last.workload, &last.figures) == (&workload, &figures) => last.counts.push(count),
            _ => rows.push(Row { workload, counts: vec![count], figures }),
        }
    }
    rows
}

fn with_commas(figure: &str) -> String {
    figure.parse().map_or(figure.to_string(), grouped)
}

pub fn report(only: &str) -> Result<(), String> {
    println!("\nCalls of memcpy and memmove, bytes copied by them and bytes filled by memset, table ascending:\n");
    println!("| Calls | Mappings | (a) copies | copied | filled | (c) copies | copied | filled |");
    println!("|---|---|---:|---:|---:|---:|---:|---:|");
    for row in rows(&lines()?).iter().filter(|r| r.workload.contains(only)) {
        let figures: Vec<String> = row.figures.iter().map(|f| with_commas(f)).collect();
        println!("| {} | {} | {} |", row.workload, row.counts.join(", "), figures.join(" | "));
    }
    Ok(())
}
