//! Stands in for the attribute `tracked`: the function keeps its body, and lends its answer.
//!
//! Database queries are no part of the comparison, so nothing is kept between calls.

use proc_macro::{Delimiter, Group, TokenStream, TokenTree};

/// Turns `fn f(a: A, ..) -> T { .. }` into a function that answers `&T`.
#[proc_macro_attribute]
pub fn tracked(_: TokenStream, item: TokenStream) -> TokenStream {
    let tokens: Vec<TokenTree> = item.into_iter().collect();
    let arrow = tokens
        .windows(2)
        .position(|two| is_punct(&two[0], '-') && is_punct(&two[1], '>'))
        .expect("a tracked function has an answer");
    let Some(TokenTree::Group(body)) = tokens.last() else { panic!("a function has a body") };
    let Some(TokenTree::Group(parameters)) = tokens[..arrow].last() else { panic!("a function has parameters") };
    let name = match &tokens[arrow - 2] {
        TokenTree::Ident(name) => name.to_string(),
        other => panic!("a function has a name, not {other}"),
    };
    let head: TokenStream = tokens[..arrow - 1].iter().cloned().collect();
    let answer: TokenStream = tokens[arrow + 2..tokens.len() - 1].iter().cloned().collect();
    let arguments = names(parameters);
    let text = format!(
        "{head} {parameters} -> &{answer} {{ fn {name}_inner {parameters} -> {answer} {body} \
         ::std::boxed::Box::leak(::std::boxed::Box::new({name}_inner({arguments}))) }}"
    );
    text.parse().expect("the function can be read again")
}

fn is_punct(token: &TokenTree, wanted: char) -> bool {
    matches!(token, TokenTree::Punct(it) if it.as_char() == wanted)
}

/// The names of the parameters, with commas between them.
fn names(parameters: &Group) -> String {
    assert_eq!(parameters.delimiter(), Delimiter::Parenthesis);
    let tokens: Vec<TokenTree> = parameters.stream().into_iter().collect();
    let mut names = Vec::new();
    for two in tokens.windows(2) {
        if let (TokenTree::Ident(name), true) = (&two[0], is_punct(&two[1], ':')) {
            names.push(name.to_string());
        }
    }
    names.join(", ")
}
