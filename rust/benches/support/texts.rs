//! The measured texts.

/// Twenty short rules of a radio's commands.
pub const COMMANDS: &str = "command = set end\r\n\
                            set = \"F\" digits\r\n\
                            set =/ \"M\" digit\r\n\
                            set =/ \"T\" digit digit\r\n\
                            set =/ reading ; as they are asked for\r\n\
                            reading = \"F\" / \"M\" / \"T\"\r\n\
                            digits = digit\r\n\
                            digits =/ digit digits\r\n\
                            digit = \"0\"\r\n\
                            digit =/ \"1\"\r\n\
                            digit =/ \"2\"\r\n\
                            digit =/ \"3\"\r\n\
                            digit =/ \"4\"\r\n\
                            digit =/ \"5\"\r\n\
                            digit =/ \"6\"\r\n\
                            digit =/ \"7\"\r\n\
                            digit =/ \"8\"\r\n\
                            digit =/ \"9\"\r\n\
                            end = \";\"\r\n\
                            end =/ %x0D.0A\r\n";

/// Some lines one after the other as far as they go into this many bytes, the last of them with a comment that fills what is left.
fn filled(lines: impl Iterator<Item = String>, bytes: usize) -> Vec<u8> {
    let mut text = String::new();
    for line in lines {
        if text.len() + line.len() + 1 > bytes {
            break;
        }
        text += &line;
    }
    let comment = "-".repeat(bytes - text.len() - 1);
    text.insert_str(text.len() - 2, &format!(";{comment}"));
    text.into_bytes()
}

/// An accepted text: rules of twelve names over names, letters and digits, with a few bodies of three symbols. Their alternatives come again and again.
pub fn alternatives(bytes: usize) -> Vec<u8> {
    const NAMES: [&str; 12] = [
        "command",
        "setting",
        "reading",
        "frequency",
        "tone",
        "memory",
        "digit",
        "digits",
        "letter",
        "step",
        "end",
        "mode",
    ];
    let mut texts: Vec<String> = (0..10).map(|digit| format!("\"{digit}\"")).collect();
    texts.extend(["F", "m", "T", "\r", "\n", ";"].map(|text| match text.as_bytes()[0] {
        byte @ (b'\r' | b'\n') => format!("%x{byte:02X}"),
        _ => format!("\"{text}\""),
    }));
    let alternative = move |n: usize| {
        let (name, text) = (NAMES[n % 12], &texts[n * 7 % 16]);
        match n {
            // Each takes a tail, so there are not many of them.
            0..=11 => format!("{name} {text} {name}"),
            _ if n % 3 == 0 => format!("{name} {}", NAMES[n / 12 % 12]),
            _ if n % 3 == 1 => format!("{text} {name}"),
            _ => text.clone(),
        }
    };
    let line = move |n: usize| {
        let (name, mark) = (NAMES[n % 12], if n < 12 { "=" } else { "=/" });
        // Past the first lines the alternatives come from those that take no tails.
        let number = |k: usize| if n < 6 { 2 * n + k % 2 } else { 12 + (n * 3 + k) % 48 };
        format!("{name} {mark} {} / {} / \"\"\r\n", alternative(number(0)), alternative(number(1)))
    };
    filled((0..).map(line), bytes)
}

/// A number in letters.
fn letters(mut number: usize) -> String {
    let mut name = String::new();
    loop {
        name.push(char::from(b'a' + (number % 26) as u8));
        number /= 26;
        if number == 0 {
            return name;
        }
    }
}

/// A text with hundreds or thousands of names, each with a rule and mentioned in others: more than there are variables.
pub fn names(bytes: usize) -> Vec<u8> {
    filled((0..).map(|n| format!("{}={}\r\n", letters(n), letters(n / 2))), bytes)
}

/// The same with a name that has no rule at its end.
pub fn name_without_rule(bytes: usize) -> Vec<u8> {
    let last = b"a=/none-\r\n";
    [names(bytes - last.len()), last.to_vec()].concat()
}
