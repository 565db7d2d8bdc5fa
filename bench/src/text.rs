//! Numbers and tables as Markdown.

/// Rounded to a whole number, with a comma between thousands.
pub fn grouped(number: f64) -> String {
    let digits = format!("{:.0}", number);
    let mut text = String::new();
    for (i, digit) in digits.chars().enumerate() {
        if i > 0 && (digits.len() - i) % 3 == 0 {
            text.push(',');
        }
        text.push(digit);
    }
    text
}

pub fn times_as_long(ratio: f64) -> String {
    if ratio < 10.0 {
        format!("{:.2}", ratio)
    } else {
        grouped(ratio)
    }
}

pub fn percent(part: f64) -> String {
    let digits = if part < 0.1 { 2 } else { 0 };
    format!("{:.*} %", digits, 100.0 * part)
}

pub fn row(cells: &[String]) -> String {
    format!("| {} |", cells.join(" | "))
}

pub fn table(head: &[&str], rows: &[String]) -> String {
    let rule = "---|".repeat(head.len());
    format!("| {} |\n|{}\n{}", head.join(" | "), rule, rows.join("\n"))
}
