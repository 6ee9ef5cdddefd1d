//! Finds the branches of Rust text and writes a counter into each. It knows the forms that the cut text has:
//! `if`, `if let`, `while let`, `else`, `for`, match arms, `matches!`, closures and functions that tell, `unwrap_or`.

/// Methods whose closure tells true or false.
const TELLING: &[&str] = &["position(", "filter(", "find(", "any(", "take_while("];

#[derive(Default)]
pub struct Points {
    counters: usize,
    rows: String,
    function: String,
}

impl Points {
    pub fn table(&self) -> String {
        let (counters, rows) = (self.counters, &self.rows);
        format!("pub const COUNTERS: usize = {counters};\npub const BRANCHES: &[Branch] = &[\n{rows}];\n")
    }

    /// The text with its counters. What is no branch is copied as it is.
    pub fn counted(&mut self, text: &str) -> String {
        let mut out = String::new();
        let mut rest = text;
        while !rest.is_empty() {
            let mut taken = skipped(rest);
            if taken == 0 && !out.ends_with(is_name) {
                taken = self.branch(rest, &mut out);
            } else {
                out.push_str(&rest[..taken]);
            }
            if taken == 0 {
                taken = rest.chars().next().unwrap().len_utf8();
                out.push_str(&rest[..taken]);
            }
            rest = &rest[taken..];
        }
        out
    }

    /// Writes the branch that begins here, and says how much of the text it read: nothing if there is none.
    fn branch(&mut self, text: &str, out: &mut String) -> usize {
        if let Some(rest) = text.strip_prefix("fn ") {
            self.function = rest[..rest.find('(').unwrap()].to_string();
            return self.telling_function(text, out);
        }
        if text.starts_with("if let ") || text.starts_with("while let ") {
            return self.pattern(text, out);
        }
        if text.starts_with("if ") {
            return self.condition(text, out);
        }
        if text.starts_with("else {") {
            let hit = self.hit("else", "taken");
            out.push_str(&format!("else {{ {hit}"));
            return "else {".len();
        }
        if text.starts_with("for ") {
            return self.each(text, out);
        }
        if text.starts_with("match ") {
            return self.arms(text, out);
        }
        if text.starts_with("matches!(") {
            return self.alternatives(text, out);
        }
        if text.starts_with(".unwrap_or(") {
            let counter = self.two_ways("unwrap_or");
            out.push_str(&format!(".counted({counter})"));
            return 0;
        }
        if text.starts_with('|') && TELLING.iter().any(|method| out.ends_with(method)) {
            return self.telling_closure(text, out);
        }
        0
    }

    /// `if a && b {`: each part is told.
    fn condition(&mut self, text: &str, out: &mut String) -> usize {
        let end = until(text, "{");
        let told = self.told(&text["if ".len()..end]);
        out.push_str(&format!("if {told} "));
        end
    }

    /// `if let pattern = value {`, and the same with `while`.
    fn pattern(&mut self, text: &str, out: &mut String) -> usize {
        let equals = until(text, " = ") + " = ".len();
        let brace = until(text, "{");
        let value = self.counted(text[equals..brace].trim_end());
        let (both, one) = (self.counter(), self.counter());
        self.row(&text[..brace], "matched", one, None);
        self.row(&text[..brace], "not matched", both, Some(one));
        let head = &text[..equals];
        out.push_str(&format!(
            "{head}crate::count::seen({both}, {value}) {{ crate::count::hit({one});"
        ));
        brace + 1
    }

    fn each(&mut self, text: &str, out: &mut String) -> usize {
        let brace = until(text, "{");
        if !text[..brace].contains(" in ") {
            return 0; // `impl .. for ..`
        }
        let head = self.counted(&text["for ".len()..brace]);
        let hit = self.hit(&text[..brace], "entered");
        out.push_str(&format!("for {head}{{ {hit}"));
        brace + 1
    }

    /// Each alternative of each arm becomes an arm of its own.
    fn arms(&mut self, text: &str, out: &mut String) -> usize {
        let brace = until(text, "{");
        let end = brace + 1 + until(&text[brace + 1..], "}");
        out.push_str(&text[..=brace]);
        let mut rest = &text[brace + 1..end];
        while !rest[blank(rest)..].is_empty() {
            rest = &rest[blank(rest)..];
            let arrow = until(rest, "=>");
            let length = arm_length(&rest[arrow + 2..]);
            let body = self.counted(rest[arrow + 2..][..length].trim_end_matches(','));
            for case in rest[..arrow].split(" | ").map(str::trim) {
                let hit = self.hit(case, "taken");
                out.push_str(&format!("{case} => {{ {hit}{body} }}\n"));
            }
            rest = &rest[arrow + 2 + length..];
        }
        out.push('}');
        end + 1
    }

    /// `matches!(value, a | b)`.
    fn alternatives(&mut self, text: &str, out: &mut String) -> usize {
        let inside = "matches!(".len();
        let end = inside + until(&text[inside..], ")");
        let (value, cases) = text[inside..end].split_once(',').unwrap();
        out.push_str(&format!("match {} {{\n", value.trim()));
        for case in cases.split('|').map(str::trim) {
            let hit = self.hit(case, "matched");
            out.push_str(&format!("{case} => {{ {hit} true }}\n"));
        }
        let hit = self.hit(value.trim(), "none matched");
        out.push_str(&format!(
            "#[allow(unreachable_patterns)] _ => {{ {hit} false }} }}"
        ));
        end + 1
    }

    fn telling_closure(&mut self, text: &str, out: &mut String) -> usize {
        let body = 1 + text[1..].find('|').unwrap() + 1;
        let end = body + until(&text[body..], ")");
        let told = self.told(&text[body..end]);
        out.push_str(&format!("{} {told}", &text[..body]));
        end
    }

    /// A function that is one condition.
    fn telling_function(&mut self, text: &str, out: &mut String) -> usize {
        let brace = until(text, "{");
        let body = &text[brace + 1..brace + 1 + until(&text[brace + 1..], "}")];
        if !text[..brace].ends_with("-> bool ") || !body.contains("&&") {
            return 0;
        }
        let told = self.told(body);
        out.push_str(&format!("{}{told}", &text[..=brace]));
        brace + 1 + body.len()
    }

    /// A condition, each part of `&&` and `||` with its two counters.
    fn told(&mut self, text: &str) -> String {
        for operator in [" || ", " && "] {
            let at = until(text, operator);
            if at < text.len() {
                let first = self.told(&text[..at]);
                let second = self.told(&text[at + operator.len()..]);
                return format!("{first}{operator}{second}");
            }
        }
        let counter = self.two_ways(text);
        let text = self.counted(text.trim());
        format!("crate::count::told({counter}, {text})")
    }

    fn counter(&mut self) -> usize {
        self.counters += 1;
        self.counters - 1
    }

    fn hit(&mut self, text: &str, way: &str) -> String {
        let counter = self.counter();
        self.row(text, way, counter, None);
        format!("crate::count::hit({counter});")
    }

    fn two_ways(&mut self, text: &str) -> usize {
        let (one, other) = (self.counter(), self.counter());
        self.row(text, "yes", one, None);
        self.row(text, "no", other, None);
        one
    }

    fn row(&mut self, text: &str, way: &str, counter: usize, less: Option<usize>) {
        let function = &self.function;
        let text: Vec<&str> = text
            .lines()
            .map(|l| l.split("//").next().unwrap())
            .collect();
        let text: Vec<&str> = text.iter().flat_map(|l| l.split_whitespace()).collect();
        let text = text.join(" ");
        self.rows += &format!(
            "Branch {{ function: {function:?}, text: {text:?}, way: {way:?}, counter: {counter}, less: {less:?} }},\n"
        );
    }
}

fn is_name(c: char) -> bool {
    c.is_alphanumeric() || c == '_'
}

/// The length of the comment or string that begins here.
fn skipped(text: &str) -> usize {
    if text.starts_with("//") {
        return text.find('\n').unwrap_or(text.len());
    }
    match text.strip_prefix('"') {
        Some(rest) => rest.find('"').unwrap() + 2,
        None => 0,
    }
}

/// Blanks and comments.
fn blank(text: &str) -> usize {
    let mut at = 0;
    loop {
        let rest = &text[at..];
        at += rest.len() - rest.trim_start().len();
        match skipped(&text[at..]) {
            0 => return at,
            comment => at += comment,
        }
    }
}

/// Where `mark` first stands outside comments, strings and brackets; the text's length if nowhere.
fn until(text: &str, mark: &str) -> usize {
    let mut depth = 0;
    let mut at = 0;
    while at < text.len() {
        let rest = &text[at..];
        if depth == 0 && rest.starts_with(mark) {
            return at;
        }
        match rest.as_bytes()[0] {
            b'(' | b'[' | b'{' => depth += 1,
            b')' | b']' | b'}' => depth -= 1,
            _ => {}
        }
        let character = rest.chars().next().unwrap().len_utf8();
        at += skipped(rest).max(character);
    }
    text.len()
}

/// The body of a match arm with the comma after it.
fn arm_length(text: &str) -> usize {
    let start = blank(text);
    if text[start..].starts_with('{') {
        let end = start + 1 + until(&text[start + 1..], "}") + 1;
        return end + usize::from(text[end..].starts_with(','));
    }
    (until(text, ",") + 1).min(text.len())
}
