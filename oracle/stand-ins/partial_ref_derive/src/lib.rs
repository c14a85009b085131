//! `#[derive(PartialRefTarget)]` for the stand-in of `partial_ref`: one `HasPart` for each field
//! with `#[part(NAME)]`. Reads structs with named fields and at most one lifetime, which is all
//! that context.rs needs.
use proc_macro::{Delimiter, TokenStream, TokenTree};

#[proc_macro_derive(PartialRefTarget, attributes(part))]
pub fn partial_ref_target(item: TokenStream) -> TokenStream {
    let tokens: Vec<TokenTree> = item.into_iter().collect();
    let at = tokens
        .iter()
        .position(|token| token.to_string() == "struct")
        .expect("a struct");
    let name = tokens[at + 1].to_string();
    let generic = tokens[at + 2].to_string() == "<";
    let TokenTree::Group(body) = tokens.last().expect("a body") else {
        panic!("named fields expected");
    };
    assert!(body.delimiter() == Delimiter::Brace);

    let mut out = String::new();
    let mut part: Option<(String, bool)> = None;
    let mut field = String::new();
    let fields: Vec<TokenTree> = body.stream().into_iter().collect();
    let mut depth = 0;
    let mut place = 0;
    while place < fields.len() {
        let text = fields[place].to_string();
        match &fields[place] {
            TokenTree::Punct(_) if text == "#" => {
                if let Some(TokenTree::Group(attribute)) = fields.get(place + 1) {
                    let inside: Vec<TokenTree> = attribute.stream().into_iter().collect();
                    if inside[0].to_string() == "part" {
                        let TokenTree::Group(given) = &inside[1] else {
                            panic!("#[part(NAME)] expected");
                        };
                        let given: Vec<TokenTree> = given.stream().into_iter().collect();
                        part = Some((given[0].to_string(), given.len() > 1));
                    }
                }
                place += 2;
                continue;
            }
            TokenTree::Punct(_) if text == "<" => depth += 1,
            TokenTree::Punct(_) if text == ">" => depth -= 1,
            TokenTree::Punct(_) if text == ":" && depth == 0 => {
                field = fields[place - 1].to_string();
            }
            TokenTree::Punct(_) if text == "," && depth == 0 => {
                finish(&mut out, &name, generic, &mut part, &field);
            }
            _ => (),
        }
        place += 1;
    }
    finish(&mut out, &name, generic, &mut part, &field);
    out.parse().expect("the code written here")
}

fn finish(
    out: &mut String,
    name: &str,
    generic: bool,
    part: &mut Option<(String, bool)>,
    field: &str,
) {
    let Some((part, part_generic)) = part.take() else {
        return;
    };
    let target = if generic {
        format!("{name}<'target>")
    } else {
        name.to_string()
    };
    // The value of a part's name has the lifetime 'static, so the name's own lifetime is left open
    // and the held type is that of the target.
    let (part, held) = if part_generic {
        (
            format!("{part}<'part>"),
            format!("<{part}<'target> as ::partial_ref::Part>::PartType"),
        )
    } else {
        (
            part.clone(),
            format!("<{part} as ::partial_ref::Part>::PartType"),
        )
    };
    out.push_str(&format!(
        "impl<'target, 'part> ::partial_ref::HasPart<{part}> for {target} {{
            type PartType = {held};
            fn part_pointer(target: *mut Self) -> *mut Self::PartType {{
                unsafe {{ ::std::ptr::addr_of_mut!((*target).{field}) }}
            }}
        }}"
    ));
}
