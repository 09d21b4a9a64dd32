//! The text of cases.txt.

use crate::lists::Entry;

pub struct Case {
    pub label: String,
    pub bytes: Vec<u8>,
    pub list: Vec<Entry>,
    pub arithmetic: bool,
}

pub fn all() -> Result<Vec<Case>, String> {
    parse(include_str!("../../cases.txt"))
}

pub fn parse(text: &str) -> Result<Vec<Case>, String> {
    let mut lines = text
        .lines()
        .filter(|line| !line.trim().is_empty() && !line.starts_with('#'));
    let mut cases = Vec::new();
    while let Some(line) = lines.next() {
        cases.push(Case {
            label: label(line)?,
            bytes: bytes(value(lines.next(), "bytes:")?)?,
            list: list(value(lines.next(), "list:")?)?,
            arithmetic: yes_or_no(value(lines.next(), "arithmetic:")?)?,
        });
    }
    Ok(cases)
}

fn value<'a>(line: Option<&'a str>, key: &str) -> Result<&'a str, String> {
    line.and_then(|line| line.strip_prefix(key))
        .ok_or_else(|| format!("'{key}' should stand here: {line:?}"))
}

fn label(line: &str) -> Result<String, String> {
    let (label, _condition) = value(Some(line), "case ")?
        .split_once(':')
        .ok_or_else(|| format!("a case without a condition: {line}"))?;
    Ok(label.to_string())
}

fn bytes(text: &str) -> Result<Vec<u8>, String> {
    let mut bytes = Vec::new();
    for word in text.split_whitespace() {
        let (hex, times) = word.split_once('*').unwrap_or((word, "1"));
        let byte = u8::from_str_radix(hex, 16).map_err(|fault| format!("{word}: {fault}"))?;
        let times = number(times)?;
        bytes.extend(std::iter::repeat_n(byte, times));
    }
    Ok(bytes)
}

fn list(text: &str) -> Result<Vec<Entry>, String> {
    text.split_whitespace().map(entry).collect()
}

fn entry(word: &str) -> Result<Entry, String> {
    let (rule, place) = word
        .split_once('@')
        .ok_or_else(|| format!("an entry without a node: {word}"))?;
    let (node, name) = match place.split_once(':') {
        Some((node, name)) => (node, Some(name)),
        None => (place, None),
    };
    Ok(Entry {
        rule: listed_rule(number(rule)?)?,
        node: number(node)?,
        name: name.map(number).transpose()?,
    })
}

fn listed_rule(rule: u32) -> Result<u32, String> {
    match rule {
        20..=28 | 30..=32 => Ok(rule),
        _ => Err(format!("a list has no rule {rule}")),
    }
}

fn number<N: std::str::FromStr<Err = std::num::ParseIntError>>(text: &str) -> Result<N, String> {
    text.parse().map_err(|fault| format!("{text}: {fault}"))
}

fn yes_or_no(text: &str) -> Result<bool, String> {
    match text.trim() {
        "yes" => Ok(true),
        "no" => Ok(false),
        other => Err(format!("neither yes nor no: {other}")),
    }
}
