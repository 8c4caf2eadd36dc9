//! In the place of `serde`: `Serialize` lends each private field of a struct, as `FIELD_mut`,
//! so that a test can read and set what no call of the type shows. It adds nothing else.
use proc_macro::{Delimiter, TokenStream, TokenTree};

/// Names and types.
type Fields = &'static [(&'static str, &'static str)];

/// A struct that derives no `Serialize` is lent beside one of its module that does: that one's
/// name, its own, and the fields.
const BESIDE: [(&str, &str, Fields); 1] = [(
    "Thread",
    "Scheduler",
    &[
        ("threads", "BTreeMap<ThreadId, Thread>"),
        ("ready", "BTreeMap<u8, VecDeque<ThreadId>>"),
        ("current", "Option<ThreadId>"),
        ("next_thread", "ThreadId"),
        ("sequence", "u64"),
        ("mutexes", "BTreeMap<u64, Option<ThreadId>>"),
        ("now", "u64"),
        ("timers", "BTreeMap<u64, Timer>"),
        ("dpcs", "BTreeMap<u64, Dpc>"),
        ("timer_initializations", "u64"),
        ("dpc_initializations", "u64"),
        ("dpc_policy", "DpcPolicy"),
        ("dpc_queue", "VecDeque<u64>"),
        ("dpc_counters", "DpcCounters"),
    ],
)];

#[proc_macro_derive(Serialize, attributes(serde))]
pub fn serialize(item: TokenStream) -> TokenStream {
    let Some((name, fields)) = braced_struct(item) else {
        return TokenStream::new();
    };
    let own = private_fields(fields);
    let own = own
        .iter()
        .map(|(field, kind)| (field.as_str(), kind.as_str()));
    let mut code = lenders(&name, own);
    for (neighbour, other, fields) in BESIDE {
        if neighbour == name {
            code += &lenders(other, fields.iter().copied());
        }
    }
    code.parse().expect("functions that lend a field")
}

fn lenders<'a>(name: &str, fields: impl Iterator<Item = (&'a str, &'a str)>) -> String {
    let lenders: String = fields
        .map(|(field, kind)| {
            format!("pub fn {field}_mut(&mut self) -> &mut {kind} {{ &mut self.{field} }}")
        })
        .collect();
    format!("#[allow(dead_code, private_interfaces)] impl {name} {{ {lenders} }}")
}

/// The name and the fields of `struct NAME { FIELDS }`; nothing for an enum or any other struct.
fn braced_struct(item: TokenStream) -> Option<(String, TokenStream)> {
    let mut tokens = item
        .into_iter()
        .skip_while(|token| token.to_string() != "struct")
        .skip(1);
    let name = tokens.next()?.to_string();
    match tokens.next()? {
        TokenTree::Group(fields) if fields.delimiter() == Delimiter::Brace => {
            Some((name, fields.stream()))
        }
        _ => None,
    }
}

/// Name and type of each field that is not `pub`.
fn private_fields(fields: TokenStream) -> Vec<(String, String)> {
    let mut found = Vec::new();
    let mut tokens = fields.into_iter().peekable();
    while tokens.peek().is_some() {
        while tokens.next_if(|token| token.to_string() == "#").is_some() {
            tokens.next();
        }
        let public = tokens.next_if(|token| token.to_string() == "pub").is_some();
        if public {
            tokens.next_if(|token| matches!(token, TokenTree::Group(_)));
        }
        let name = tokens.next().expect("a field's name").to_string();
        tokens.next().expect("a colon");
        let mut kind = TokenStream::new();
        let mut depth = 0;
        for token in tokens.by_ref() {
            match token.to_string().as_str() {
                "<" => depth += 1,
                ">" => depth -= 1,
                "," if depth == 0 => break,
                _ => {}
            }
            kind.extend([token]);
        }
        if !public {
            found.push((name, kind.to_string()));
        }
    }
    found
}
