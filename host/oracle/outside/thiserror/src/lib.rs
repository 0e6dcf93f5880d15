//! Stand-in for the crate of this name: `#[derive(Error)]` for an enum whose variants are tuples or
//! empty. It gives `Display` from `#[error("...")]`, `From` for a field with `#[from]`, and `Error`.

use proc_macro::{Delimiter, Group, TokenStream, TokenTree};

#[proc_macro_derive(Error, attributes(error, from))]
pub fn error(item: TokenStream) -> TokenStream {
    let (name, body) = name_and_body(item);
    let variants = variants(body);
    let arms: String = variants.iter().map(Variant::display_arm).collect();
    let conversions: String = variants.iter().map(|v| v.conversions(&name)).collect();
    let code = format!(
        "impl ::std::fmt::Display for {name} {{
            fn fmt(&self, f: &mut ::std::fmt::Formatter<'_>) -> ::std::fmt::Result {{
                match self {{ {arms} }}
            }}
        }}
        impl ::std::error::Error for {name} {{}}
        {conversions}"
    );
    code.parse().expect("the derived code is Rust")
}

/// A variant: its name, its message as a literal, and its fields.
struct Variant {
    name: String,
    message: String,
    fields: Vec<Field>,
}

/// A field of a tuple variant: its type, and whether the enum is made from it.
struct Field {
    kind: String,
    from: bool,
}

impl Variant {
    /// The match arm that prints the message. Field n is bound to `_n` where the message names it.
    fn display_arm(&self) -> String {
        let mut message = self.message.clone();
        let mut bound = Vec::new();
        for index in 0..self.fields.len() {
            let (numbered, named) = (format!("{{{index}}}"), format!("{{_{index}}}"));
            bound.push(if message.contains(&numbered) {
                format!("_{index}")
            } else {
                "_".to_string()
            });
            message = message.replace(&numbered, &named);
        }
        let fields = if bound.is_empty() {
            String::new()
        } else {
            format!("({})", bound.join(", "))
        };
        format!("Self::{}{fields} => write!(f, {message}),", self.name)
    }

    fn conversions(&self, enum_name: &str) -> String {
        let convert = |field: &Field| {
            format!(
                "impl ::std::convert::From<{kind}> for {enum_name} {{
                    fn from(source: {kind}) -> Self {{ Self::{variant}(source) }}
                }}",
                kind = field.kind,
                variant = self.name
            )
        };
        self.fields.iter().filter(|f| f.from).map(convert).collect()
    }
}

/// The enum's name, and what stands between its braces.
fn name_and_body(item: TokenStream) -> (String, TokenStream) {
    let mut name = None;
    let mut after_keyword = false;
    for token in item {
        match token {
            TokenTree::Ident(word) if after_keyword => {
                name = Some(word.to_string());
                after_keyword = false;
            }
            TokenTree::Ident(word) => after_keyword = word.to_string() == "enum",
            TokenTree::Group(group) if name.is_some() && is_braced(&group) => {
                return (name.expect("tested above"), group.stream());
            }
            _ => {}
        }
    }
    panic!("this derive is for enums only")
}

fn is_braced(group: &Group) -> bool {
    group.delimiter() == Delimiter::Brace
}

/// The tokens between commas.
fn parted(stream: TokenStream) -> Vec<Vec<TokenTree>> {
    let tokens: Vec<TokenTree> = stream.into_iter().collect();
    let is_comma = |t: &TokenTree| matches!(t, TokenTree::Punct(mark) if mark.as_char() == ',');
    let parts = tokens.split(is_comma).filter(|part| !part.is_empty());
    parts.map(<[TokenTree]>::to_vec).collect()
}

fn variants(body: TokenStream) -> Vec<Variant> {
    parted(body).into_iter().map(variant).collect()
}

fn variant(tokens: Vec<TokenTree>) -> Variant {
    let (attributes, rest) = split_attributes(tokens);
    let message = attributes.iter().find_map(message_of);
    let fields = match rest.get(1) {
        Some(TokenTree::Group(group)) => parted(group.stream()).into_iter().map(field).collect(),
        _ => Vec::new(),
    };
    Variant {
        name: rest[0].to_string(),
        message: message.expect("each variant has a message"),
        fields,
    }
}

fn field(tokens: Vec<TokenTree>) -> Field {
    let (attributes, rest) = split_attributes(tokens);
    Field {
        kind: rest.into_iter().collect::<TokenStream>().to_string(),
        from: attributes.iter().any(|a| a.stream().to_string() == "from"),
    }
}

/// The bracketed groups of the leading `#[...]`, and the tokens after them.
fn split_attributes(tokens: Vec<TokenTree>) -> (Vec<Group>, Vec<TokenTree>) {
    let mut attributes = Vec::new();
    let mut rest = tokens.into_iter().peekable();
    while let Some(TokenTree::Punct(mark)) = rest.peek() {
        if mark.as_char() != '#' {
            break;
        }
        rest.next();
        if let Some(TokenTree::Group(group)) = rest.next() {
            attributes.push(group);
        }
    }
    (attributes, rest.collect())
}

/// The literal of an `error("...")` attribute.
fn message_of(attribute: &Group) -> Option<String> {
    let mut tokens = attribute.stream().into_iter();
    let is_error = matches!(tokens.next(), Some(TokenTree::Ident(w)) if w.to_string() == "error");
    match tokens.next() {
        Some(TokenTree::Group(group)) if is_error => Some(group.stream().to_string()),
        _ => None,
    }
}
