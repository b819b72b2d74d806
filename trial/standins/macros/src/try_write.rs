//! `#[derive(TryWrite)]`: tag and fields in the order of the declaration.

use proc_macro::{Delimiter, TokenStream, TokenTree};

use crate::tokens::{Tokens, Walk, is_punct, split_commas};

pub fn derive(item: TokenStream) -> TokenStream {
    let mut walk = Walk::new(item);
    walk.attributes();
    walk.visibility();
    let keyword = walk.ident().to_string();
    let name = walk.ident().to_string();
    let params = type_params(walk.generics());
    let body = match keyword.as_str() {
        "enum" => enum_body(walk),
        _ => struct_body(walk),
    };

    let bounds: String = params
        .iter()
        .map(|param| format!("{param}: ::byte::TryWrite,"))
        .collect();
    let params = params.join(",");
    format!(
        "impl<{bounds}> ::byte::TryWrite for {name}<{params}> {{
            fn write(&self, parts: &mut ::byte::Parts) {{ match self {{ {body} }} }}
        }}"
    )
    .parse()
    .expect("an impl")
}

/// Names of the type parameters, without their defaults.
fn type_params(generics: Tokens) -> Vec<String> {
    split_commas(generics)
        .into_iter()
        .map(|param| param[0].to_string())
        .collect()
}

fn struct_body(mut walk: Walk) -> String {
    let (pattern, writes) = fields(&mut walk);
    format!("Self {pattern} => {{ {writes} }}")
}

fn enum_body(mut walk: Walk) -> String {
    let variants = walk.group(Delimiter::Brace).expect("variants");
    split_commas(variants.stream())
        .into_iter()
        .map(variant_arm)
        .collect()
}

fn variant_arm(variant: Tokens) -> String {
    let mut walk = Walk::new(variant);
    let tag = walk
        .attributes()
        .into_iter()
        .find_map(tag_mark)
        .expect("a tag");
    let name = walk.ident().to_string();
    let (pattern, writes) = fields(&mut walk);
    format!("Self::{name} {pattern} => {{ parts.name = {name:?}; parts.tag = {tag}; {writes} }}")
}

/// The number of `byte(tag = NUMBER)`.
fn tag_mark(attribute: TokenStream) -> Option<String> {
    let mut walk = Walk::new(attribute);
    if !walk.at_ident("byte") {
        return None;
    }
    walk.next();
    let mark: Tokens = walk
        .group(Delimiter::Parenthesis)?
        .stream()
        .into_iter()
        .collect();
    match &mark[..] {
        [TokenTree::Ident(key), equals, number]
            if key.to_string() == "tag" && is_punct(equals, '=') =>
        {
            Some(number.to_string())
        }
        _ => None,
    }
}

/// A pattern that binds all fields, and the statements that write them in order.
fn fields(walk: &mut Walk) -> (String, String) {
    if let Some(group) = walk.group(Delimiter::Brace) {
        let names: Vec<String> = split_commas(group.stream())
            .into_iter()
            .map(field_name)
            .collect();
        (format!("{{ {} }}", names.join(",")), writes(&names))
    } else if let Some(group) = walk.group(Delimiter::Parenthesis) {
        let count = split_commas(group.stream()).len();
        let names: Vec<String> = (0..count).map(|n| format!("field{n}")).collect();
        (format!("({})", names.join(",")), writes(&names))
    } else {
        (String::new(), String::new())
    }
}

fn field_name(field: Tokens) -> String {
    let mut walk = Walk::new(field);
    walk.attributes();
    walk.visibility();
    walk.ident().to_string()
}

fn writes(names: &[String]) -> String {
    names
        .iter()
        .map(|name| format!("::byte::TryWrite::write({name}, parts);"))
        .collect()
}
