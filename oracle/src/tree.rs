//! A reader of what Rust writes for `{:?}`: structs, tuple structs, lists, maps, strings and plain words become a tree.

/// What a piece of `{:?}` text says.
#[derive(Clone, Debug, PartialEq)]
pub enum Tree {
    /// A number, a range, or a name with nothing behind it: `-3`, `1..4`, `true`, `None`.
    Word(String),
    /// A string, with its escapes taken back.
    Text(String),
    /// `Name(a, b)`; the name may be empty.
    Tuple(String, Vec<Tree>),
    /// `Name { a: 1, b: 2 }`; a `..` at its end is passed over.
    Struct(String, Vec<(String, Tree)>),
    /// `[a, b]`
    List(Vec<Tree>),
    /// `{k: v, l: w}`
    Map(Vec<(Tree, Tree)>),
}

impl Tree {
    pub fn parse(text: &str) -> Result<Tree, String> {
        let mut reader = Reader { text, at: 0 };
        let tree = reader.tree()?;
        match reader.rest() {
            "" => Ok(tree),
            _ => Err(reader.wrong("the end")),
        }
    }

    /// The field of a struct.
    pub fn field(&self, name: &str) -> Result<&Tree, String> {
        match self {
            Tree::Struct(_, fields) => fields.iter().find(|(n, _)| n == name).map(|(_, t)| t),
            _ => None,
        }
        .ok_or_else(|| format!("there is no field `{name}` in {}", self.short()))
    }

    /// The parts of a tuple struct with that name.
    pub fn parts(&self, name: &str) -> Option<&[Tree]> {
        match self {
            Tree::Tuple(n, parts) if n == name => Some(parts),
            _ => None,
        }
    }

    /// The only part of a tuple struct with that name.
    pub fn part(&self, name: &str) -> Option<&Tree> {
        match self.parts(name) {
            Some([part]) => Some(part),
            _ => None,
        }
    }

    pub fn items(&self) -> Result<&[Tree], String> {
        match self {
            Tree::List(items) => Ok(items),
            _ => Err(format!("{} is no list", self.short())),
        }
    }

    pub fn text(&self) -> Result<&str, String> {
        match self {
            Tree::Text(text) => Ok(text),
            _ => Err(format!("{} is no string", self.short())),
        }
    }

    pub fn word(&self) -> Result<&str, String> {
        match self {
            Tree::Word(word) => Ok(word),
            _ => Err(format!("{} is no word", self.short())),
        }
    }

    pub fn number<T: std::str::FromStr>(&self) -> Result<T, String> {
        let word = self.word()?;
        word.parse()
            .map_err(|_| format!("`{word}` is no number that fits"))
    }

    pub fn flag(&self) -> Result<bool, String> {
        match self.word()? {
            "true" => Ok(true),
            "false" => Ok(false),
            other => Err(format!("`{other}` is no truth value")),
        }
    }

    /// `Some(x)` or `None`.
    pub fn option(&self) -> Result<Option<&Tree>, String> {
        match (self, self.part("Some")) {
            (_, Some(part)) => Ok(Some(part)),
            (Tree::Word(word), None) if word == "None" => Ok(None),
            _ => Err(format!("{} is no option", self.short())),
        }
    }

    pub fn range(&self) -> Result<std::ops::Range<usize>, String> {
        let word = self.word()?;
        let ends = word
            .split_once("..")
            .and_then(|(a, b)| Some(a.parse().ok()?..b.parse().ok()?));
        ends.ok_or_else(|| format!("`{word}` is no range"))
    }

    /// A few characters of it, for messages.
    fn short(&self) -> String {
        format!("{self:?}").chars().take(80).collect()
    }
}

struct Reader<'a> {
    text: &'a str,
    at: usize,
}

impl<'a> Reader<'a> {
    fn rest(&self) -> &'a str {
        &self.text[self.at..]
    }

    fn wrong(&self, wanted: &str) -> String {
        let rest: String = self.rest().chars().take(40).collect();
        format!("the debug text has no {wanted} at byte {}: {rest}", self.at)
    }

    /// Passes over the token if it comes next.
    fn skip(&mut self, token: &str) -> bool {
        let comes = self.rest().starts_with(token);
        if comes {
            self.at += token.len();
        }
        comes
    }

    fn want(&mut self, token: &str) -> Result<(), String> {
        match self.skip(token) {
            true => Ok(()),
            false => Err(self.wrong(&format!("`{token}`"))),
        }
    }

    fn tree(&mut self) -> Result<Tree, String> {
        if self.rest().starts_with('"') {
            return Ok(Tree::Text(self.string()?));
        }
        if self.skip("[") {
            return Ok(Tree::List(self.list("]")?));
        }
        if self.skip("{") {
            return Ok(Tree::Map(self.map()?));
        }
        let word = self.take_word();
        if self.skip("(") {
            return Ok(Tree::Tuple(word, self.list(")")?));
        }
        if word.is_empty() {
            return Err(self.wrong("value"));
        }
        match self.skip(" {") {
            true => Ok(Tree::Struct(word, self.fields()?)),
            false => Ok(Tree::Word(word)),
        }
    }

    fn take_word(&mut self) -> String {
        let rest = self.rest();
        let word = |c: char| c.is_alphanumeric() || matches!(c, '_' | '.' | '+' | '-');
        let end = rest.find(|c| !word(c)).unwrap_or(rest.len());
        self.at += end;
        rest[..end].to_owned()
    }

    /// Items up to the closing bracket.
    fn list(&mut self, close: &str) -> Result<Vec<Tree>, String> {
        let mut items = Vec::new();
        while !self.skip(close) {
            if !items.is_empty() {
                self.want(", ")?;
            }
            items.push(self.tree()?);
        }
        Ok(items)
    }

    fn map(&mut self) -> Result<Vec<(Tree, Tree)>, String> {
        let mut entries = Vec::new();
        while !self.skip("}") {
            if !entries.is_empty() {
                self.want(", ")?;
            }
            let key = self.tree()?;
            self.want(": ")?;
            entries.push((key, self.tree()?));
        }
        Ok(entries)
    }

    /// The fields of a struct behind its opening bracket.
    fn fields(&mut self) -> Result<Vec<(String, Tree)>, String> {
        let mut fields = Vec::new();
        loop {
            if self.skip("}") || self.skip(" }") || self.skip(" .. }") || self.skip(", .. }") {
                return Ok(fields);
            }
            self.want(if fields.is_empty() { " " } else { ", " })?;
            let name = self.take_word();
            self.want(": ")?;
            fields.push((name, self.tree()?));
        }
    }

    fn string(&mut self) -> Result<String, String> {
        self.want("\"")?;
        let mut out = String::new();
        while let Some(c) = self.next_char() {
            match c {
                '"' => return Ok(out),
                '\\' => out.push(self.escape()?),
                _ => out.push(c),
            }
        }
        Err(self.wrong("end of the string"))
    }

    fn next_char(&mut self) -> Option<char> {
        let c = self.rest().chars().next()?;
        self.at += c.len_utf8();
        Some(c)
    }

    /// What an escape stands for, behind its backslash.
    fn escape(&mut self) -> Result<char, String> {
        let c = self.next_char().ok_or_else(|| self.wrong("escape"))?;
        Ok(match c {
            'n' => '\n',
            'r' => '\r',
            't' => '\t',
            '0' => '\0',
            '\\' | '"' | '\'' => c,
            'u' => {
                self.want("{")?;
                let digits = self.take_word();
                self.want("}")?;
                let code = u32::from_str_radix(&digits, 16)
                    .ok()
                    .and_then(char::from_u32);
                code.ok_or_else(|| self.wrong("character before"))?
            }
            _ => return Err(self.wrong("known escape before")),
        })
    }
}

#[cfg(test)]
mod test {
    use super::*;

    /// Something with each form that `{:?}` has.
    #[derive(Debug)]
    #[allow(dead_code)]
    struct Sample {
        name: String,
        place: Option<usize>,
        range: std::ops::Range<usize>,
        list: Vec<i32>,
        map: std::collections::BTreeMap<String, f64>,
        inner: Inner,
        unit: (),
        hidden: Hidden,
    }

    #[derive(Debug)]
    #[allow(dead_code)]
    enum Inner {
        Pair(bool, String),
    }

    struct Hidden;

    impl std::fmt::Debug for Hidden {
        fn fmt(&self, f: &mut std::fmt::Formatter<'_>) -> std::fmt::Result {
            f.debug_struct("Hidden")
                .field("a", &1)
                .finish_non_exhaustive()
        }
    }

    fn sample() -> Sample {
        Sample {
            name: "a\"b\\, } é\n\u{7f}\0".to_owned(),
            place: Some(3),
            range: 1..4,
            list: vec![-1, 2],
            map: [("k{".to_owned(), f64::NAN), ("l".to_owned(), -0.5)].into(),
            inner: Inner::Pair(true, String::new()),
            unit: (),
            hidden: Hidden,
        }
    }

    #[test]
    fn every_form_is_read() {
        let tree = Tree::parse(&format!("{:?}", sample())).unwrap();
        assert_eq!(
            tree.field("name").unwrap().text(),
            Ok("a\"b\\, } é\n\u{7f}\0")
        );
        let place = tree.field("place").unwrap().option().unwrap().unwrap();
        assert_eq!(place.number::<usize>(), Ok(3));
        assert_eq!(tree.field("range").unwrap().range(), Ok(1..4));
        assert_eq!(
            tree.field("list").unwrap().items().unwrap()[0].number::<i32>(),
            Ok(-1)
        );
        let word = |w: &str| Tree::Word(w.to_owned());
        let text = |t: &str| Tree::Text(t.to_owned());
        let map = vec![(text("k{"), word("NaN")), (text("l"), word("-0.5"))];
        assert_eq!(tree.field("map"), Ok(&Tree::Map(map)));
        let pair = tree.field("inner").unwrap().parts("Pair").unwrap();
        assert_eq!(pair, [word("true"), text("")]);
        assert_eq!(tree.field("unit"), Ok(&Tree::Tuple(String::new(), vec![])));
        assert_eq!(tree.field("hidden").unwrap().field("a"), Ok(&word("1")));
    }

    #[test]
    fn bare_brackets_are_read() {
        assert_eq!(
            Tree::parse("A {}"),
            Ok(Tree::Struct("A".to_owned(), vec![]))
        );
        assert_eq!(
            Tree::parse("A { .. }"),
            Ok(Tree::Struct("A".to_owned(), vec![]))
        );
        assert_eq!(Tree::parse("{}"), Ok(Tree::Map(vec![])));
        assert_eq!(Tree::parse("[]"), Ok(Tree::List(vec![])));
    }

    #[test]
    fn what_is_wrong_is_an_error() {
        for text in ["", "[1", "A { b }", "\"a", "\"\\q\"", "A {", "{1}", "1 2"] {
            assert!(Tree::parse(text).is_err(), "{text}");
        }
    }
}
