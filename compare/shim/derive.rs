//! Stand-ins for the two derives that the crate's files use: thiserror's `Error` and num_enum's `TryFromPrimitive`.
//! Only what those files need: an enum without generics.
extern crate proc_macro;
use proc_macro::{Delimiter, TokenStream, TokenTree};

struct Variant {
    name: String,
    /// The type of its one field marked `#[from]`.
    from: Option<String>,
    body: Option<Delimiter>,
}

fn enum_of(input: TokenStream) -> (String, Vec<Variant>) {
    let mut tokens = input.into_iter();
    let mut name = String::new();
    while let Some(token) = tokens.next() {
        match token {
            TokenTree::Ident(word) if word.to_string() == "enum" => {
                name = tokens.next().expect("a name").to_string();
            }
            TokenTree::Group(body) if body.delimiter() == Delimiter::Brace => {
                return (name, variants_of(body.stream()));
            }
            _ => {}
        }
    }
    panic!("not an enum")
}

fn variants_of(body: TokenStream) -> Vec<Variant> {
    let mut out = Vec::new();
    let mut current: Option<Variant> = None;
    let mut after_hash = false;
    let mut after_equals = false;
    for token in body {
        match token {
            TokenTree::Punct(p) if p.as_char() == '#' => after_hash = true,
            TokenTree::Group(_) if after_hash => after_hash = false,
            TokenTree::Punct(p) if p.as_char() == ',' => {
                out.extend(current.take());
                after_equals = false;
            }
            TokenTree::Punct(p) if p.as_char() == '=' => after_equals = true,
            TokenTree::Ident(word) if !after_equals => {
                current = Some(Variant { name: word.to_string(), from: None, body: None });
            }
            TokenTree::Group(fields) => {
                let variant = current.as_mut().expect("a variant before its fields");
                variant.body = Some(fields.delimiter());
                variant.from = from_type(fields.stream());
            }
            _ => {}
        }
    }
    out.extend(current.take());
    out
}

fn from_type(fields: TokenStream) -> Option<String> {
    let mut tokens = fields.into_iter();
    match (tokens.next(), tokens.next()) {
        (Some(TokenTree::Punct(p)), Some(TokenTree::Group(g))) if p.as_char() == '#' && g.stream().to_string() == "from" => {
            Some(tokens.collect::<TokenStream>().to_string())
        }
        _ => None,
    }
}

/// `std::error::Error`, a plain `Display`, and `From` for each field marked `#[from]`.
#[proc_macro_derive(Error, attributes(error, from, source))]
pub fn error(input: TokenStream) -> TokenStream {
    let (name, variants) = enum_of(input);
    let mut out = format!(
        "impl std::error::Error for {n} {{}}
         impl std::fmt::Display for {n} {{
             fn fmt(&self, f: &mut std::fmt::Formatter<'_>) -> std::fmt::Result {{ write!(f, \"{{:?}}\", self) }}
         }}",
        n = name
    );
    for v in variants {
        if let Some(from) = v.from {
            out += &format!("impl From<{t}> for {n} {{ fn from(e: {t}) -> Self {{ {n}::{v}(e) }} }}", t = from, n = name, v = v.name);
        }
    }
    out.parse().expect("the derived text parses")
}

/// The number of a variant without fields back to the variant.
#[proc_macro_derive(TryFromPrimitive, attributes(num_enum, default))]
pub fn try_from_primitive(input: TokenStream) -> TokenStream {
    let (name, variants) = enum_of(input);
    let mut arms = String::new();
    for v in variants {
        assert!(v.body.is_none(), "a variant with fields has no number");
        arms += &format!("x if x == {n}::{v} as u8 => Ok({n}::{v}),", n = name, v = v.name);
    }
    format!(
        "impl num_enum::TryFromPrimitive for {n} {{
             type Primitive = u8;
             fn try_from_primitive(number: u8) -> std::result::Result<Self, num_enum::TryFromPrimitiveError<Self>> {{
                 match number {{ {arms} number => Err(num_enum::TryFromPrimitiveError {{ number }}) }}
             }}
         }}",
        n = name,
        arms = arms
    )
    .parse()
    .expect("the derived text parses")
}
