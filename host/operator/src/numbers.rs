//! Numbers as they are printed.

/// A number with a comma after each three digits, and a minus sign below zero.
pub fn grouped(number: i128) -> String {
    let digits = number.unsigned_abs().to_string();
    let mut text = if number < 0 { "-".to_string() } else { String::new() };
    for (i, digit) in digits.chars().enumerate() {
        if i > 0 && (digits.len() - i).is_multiple_of(3) {
            text.push(',');
        }
        text.push(digit);
    }
    text
}

/// A number of tenths, hundredths and so on as a decimal: 28,459 thousandths, which have three places, are 28.459.
pub fn decimal(number: i64, places: usize) -> String {
    let sign = if number < 0 { "-" } else { "" };
    let digits = format!("{:0>least$}", number.unsigned_abs(), least = places + 1);
    let (whole, parts) = digits.split_at(digits.len() - places);
    format!("{sign}{whole}.{parts}")
}
