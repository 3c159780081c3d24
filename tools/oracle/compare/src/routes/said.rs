//! The planner's output, cut into files and calls.

/// The first line of a table.
const TABLE: &str = "      from        to   speed  held by";

/// What is said of one file: the lines of each call, and those of the table at the end.
#[derive(Default)]
pub struct File {
    pub calls: Vec<Vec<String>>,
    pub table: Vec<String>,
}

impl File {
    fn of(lines: &[&str]) -> File {
        let end = lines.iter().rposition(|l| *l == TABLE).unwrap_or(lines.len());
        let mut f = File { calls: vec![], table: lines[end..].iter().map(|l| l.to_string()).collect() };
        for l in &lines[..end] {
            if l.starts_with("line ") || f.calls.is_empty() {
                f.calls.push(vec![]);
            }
            f.calls.last_mut().unwrap().push(l.to_string());
        }
        f
    }
}

/// The files of an output in their order, each with its name.
pub fn files(output: &str) -> Vec<(String, File)> {
    let lines: Vec<&str> = output.lines().collect();
    let begins: Vec<usize> = (0..lines.len()).filter(|&k| lines[k].starts_with("== ")).collect();
    let ends = begins.iter().skip(1).copied().chain([lines.len()]);
    begins.iter().zip(ends).map(|(&a, b)| (lines[a][3..].to_string(), File::of(&lines[a + 1..b]))).collect()
}
