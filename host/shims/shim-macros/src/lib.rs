//! The attributes and the derive that the driver uses. `unstable`, `doc_replace`: the item as it is. `handler`: a
//! function becomes a constant of its name, of type `InterruptHandler`. `EnumSetType`: for an enum without data.
use proc_macro::{Delimiter, TokenStream, TokenTree};

#[proc_macro_attribute]
pub fn unstable(_: TokenStream, item: TokenStream) -> TokenStream {
    item
}

#[proc_macro_attribute]
pub fn doc_replace(_: TokenStream, item: TokenStream) -> TokenStream {
    item
}

#[proc_macro_attribute]
pub fn handler(_: TokenStream, item: TokenStream) -> TokenStream {
    let (name, _) = name_and_next(item.clone(), "fn");
    let handler = "crate::interrupt::InterruptHandler";
    let constant = format!(
        "#[allow(non_upper_case_globals)]
         const {name}: {handler} = {{ {item} {handler}::new({name}) }};"
    );
    constant.parse().unwrap()
}

#[proc_macro_derive(EnumSetType)]
pub fn enum_set_type(item: TokenStream) -> TokenStream {
    let (name, body) = name_and_next(item, "enum");
    let all: String = variants(body).iter().map(|variant| format!("{name}::{variant},")).collect();
    let implementations = format!(
        "impl Copy for {name} {{}}
         impl Clone for {name} {{
             fn clone(&self) -> Self {{ *self }}
         }}
         impl PartialEq for {name} {{
             fn eq(&self, other: &Self) -> bool {{ *self as u32 == *other as u32 }}
         }}
         impl Eq for {name} {{}}
         impl enumset::EnumSetType for {name} {{
             const ALL: &'static [Self] = &[{all}];
             fn place(self) -> u32 {{ self as u32 }}
         }}"
    );
    implementations.parse().unwrap()
}

/// The name that follows the keyword, and what follows that name.
fn name_and_next(item: TokenStream, keyword: &str) -> (String, TokenTree) {
    let mut tokens = item.into_iter().skip_while(|token| token.to_string() != keyword).skip(1);
    let name = tokens.next().expect("a name").to_string();
    (name, tokens.next().expect("a body"))
}

/// The identifiers that stand outside attributes.
fn variants(body: TokenTree) -> Vec<String> {
    let TokenTree::Group(body) = body else { panic!("an enum without a body") };
    let tokens = body.stream().into_iter();
    let variant = |token| match token {
        TokenTree::Ident(name) => Some(name.to_string()),
        TokenTree::Group(group) if group.delimiter() != Delimiter::Bracket => panic!("a variant with data"),
        _ => None,
    };
    tokens.filter_map(variant).collect()
}
