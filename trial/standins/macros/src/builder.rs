//! `#[builder]` and `#[bon]`: a struct with one `Option` per parameter, a setter for each, and
//! `build`, which calls the function itself. A parameter that was not set panics in `build`.

use proc_macro::{Delimiter, Group, Ident, Punct, Spacing, Span, TokenStream, TokenTree};

use crate::tokens::{Tokens, Walk, is_ident, is_punct, split_commas, text};

/// A free function `name` becomes `name()`, its setters and `build`.
pub fn of_function(item: TokenStream) -> TokenStream {
    let mut function = Function::parse(&mut Walk::new(item));
    let start = function.name.to_string();
    let call = format!("{start}_call");
    function.name = Ident::new(&call, function.name.span());

    let builder = Builder {
        name: format!("{}Builder", camel_case(&start)),
        call,
        output: text(&function.output),
        function: &function,
        outer_generics: &[],
    };
    let start = builder.start(&start);
    let rest = builder.definition();
    let mut output = function.declaration();
    output.extend(parse(&format!("{start} {rest}")));
    output
}

/// The impl's `#[builder] fn new` becomes `builder()`, its setters and `build`.
pub fn of_impl(item: TokenStream) -> TokenStream {
    let mut walk = Walk::new(item);
    let keyword = walk.next();
    let generics = walk.generics();
    let self_type = walk.until_braces();
    let body = walk.group(Delimiter::Brace).expect("the impl's items");
    let (before, function, after) = split_at_builder(body);

    let builder = Builder {
        name: format!("{}Builder", self_type[0]),
        call: format!("<{}>::{}", text(&self_type), function.name),
        output: text(&replace_self(&function.output, &self_type)),
        function: &function,
        outer_generics: &generics,
    };
    let start = parse(&builder.start("builder"));
    let mut items: TokenStream = before.into_iter().collect();
    items.extend(function.declaration());
    items.extend(start);
    items.extend(after);

    let mut output = TokenStream::from(keyword);
    output.extend(parse(&format!("<{}>", text(&generics))));
    output.extend(self_type.clone());
    output.extend([TokenTree::from(Group::new(Delimiter::Brace, items))]);
    output.extend(parse(&builder.definition()));
    output
}

/// The items before the function marked `#[builder]`, that function, and the items after it.
fn split_at_builder(body: Group) -> (Tokens, Function, Tokens) {
    let mut walk = Walk::new(body.stream());
    let mut before = vec![];
    loop {
        let token = walk.next();
        if is_punct(&token, '#')
            && let Some(mark) = walk.group(Delimiter::Bracket)
        {
            if mark.stream().to_string() == "builder" {
                let function = Function::parse(&mut walk);
                return (before, function, walk.rest());
            }
            before.extend([token, mark.into()]);
        } else {
            before.push(token);
        }
    }
}

fn replace_self(tokens: &[TokenTree], self_type: &[TokenTree]) -> Tokens {
    tokens
        .iter()
        .flat_map(|token| match token {
            token if is_ident(token, "Self") => self_type.to_vec(),
            token => vec![token.clone()],
        })
        .collect()
}

struct Function {
    visibility: Tokens,
    name: Ident,
    generics: Tokens,
    params: Vec<Param>,
    output: Tokens,
    body: Group,
}

impl Function {
    fn parse(walk: &mut Walk) -> Self {
        let visibility = walk.visibility();
        assert_eq!(walk.ident().to_string(), "fn");
        let name = walk.ident();
        let generics = walk.generics();
        let params = walk.group(Delimiter::Parenthesis).expect("parameters");
        let output = walk.until_braces().split_off("->".len());
        let body = walk.group(Delimiter::Brace).expect("a body");
        Self {
            visibility,
            name,
            generics,
            params: split_commas(params.stream())
                .into_iter()
                .map(Param::parse)
                .collect(),
            output,
            body,
        }
    }

    /// The function itself, with its own body, private and without builder attributes.
    fn declaration(&self) -> TokenStream {
        let params: Vec<String> = self.params.iter().map(Param::declaration).collect();
        let mut declaration = parse(&format!(
            "#[allow(clippy::too_many_arguments)] fn {}<{}>({}) -> {}",
            self.name,
            text(&self.generics),
            params.join(","),
            text(&self.output),
        ));
        declaration.extend([TokenTree::from(self.body.clone())]);
        declaration
    }
}

struct Param {
    default: Option<String>,
    is_mut: bool,
    name: String,
    type_: Tokens,
}

impl Param {
    fn parse(tokens: Tokens) -> Self {
        let mut walk = Walk::new(tokens);
        let default = walk.attributes().into_iter().next().map(default_value);
        let is_mut = walk.at_ident("mut");
        if is_mut {
            walk.next();
        }
        let name = walk.ident().to_string();
        walk.next();
        Self {
            default,
            is_mut,
            name,
            type_: walk.rest(),
        }
    }

    fn declaration(&self) -> String {
        let mutability = if self.is_mut { "mut" } else { "" };
        format!("{mutability} {}: {}", self.name, text(&self.type_))
    }

    fn value(&self) -> String {
        let name = &self.name;
        match &self.default {
            Some(value) => format!("self.{name}.unwrap_or_else(|| {value})"),
            None => format!("self.{name}.expect(\"`{name}` should be set\")"),
        }
    }
}

/// The value of `builder(default = value)`.
fn default_value(attribute: TokenStream) -> String {
    let mut walk = Walk::new(attribute);
    walk.next();
    let options = walk.group(Delimiter::Parenthesis).expect("options");
    let mut walk = Walk::new(options.stream());
    assert_eq!(walk.ident().to_string(), "default");
    walk.next();
    text(&walk.rest())
}

struct Builder<'a> {
    name: String,
    call: String,
    output: String,
    function: &'a Function,
    outer_generics: &'a [TokenTree],
}

impl Builder<'_> {
    /// The function that starts the chain with nothing set.
    fn start(&self, start: &str) -> String {
        let Named { generics, args, .. } = self.named();
        let visibility = text(&self.function.visibility);
        let name = &self.name;
        let outer = split_commas(self.outer_generics.to_vec()).len();
        let own_generics = generics[outer..].join(",");
        let fields = self.each_param(|param| format!("{}: None,", param.name));
        format!(
            "{visibility} fn {start}<{own_generics}>() -> {name}<{args}> {{ {name} {{ {fields} }} }}"
        )
    }

    /// The struct, its setters and `build`.
    fn definition(&self) -> String {
        let Named {
            generics,
            args,
            types,
        } = self.named();
        let generics = generics.join(",");
        let visibility = text(&self.function.visibility);
        let (name, call, output) = (&self.name, &self.call, &self.output);
        let with_types = || self.function.params.iter().zip(&types);
        let fields: String = with_types()
            .map(|(param, type_)| format!("{}: Option<{type_}>,", param.name))
            .collect();
        let setters: String = with_types()
            .map(|(param, type_)| setter(&visibility, &param.name, type_))
            .collect();
        let values = self.each_param(|param| format!("{},", param.value()));
        format!(
            "{visibility} struct {name}<{generics}> {{ {fields} }}
            impl<{generics}> {name}<{args}> {{
                {setters}
                {visibility} fn build(self) -> {output} {{ {call}({values}) }}
            }}"
        )
    }

    fn each_param(&self, line: impl Fn(&Param) -> String) -> String {
        self.function.params.iter().map(line).collect()
    }

    /// Generics and field types in which nothing is left unnamed.
    fn named(&self) -> Named {
        let mut naming = Naming::default();
        let params = &self.function.params;
        let types = params
            .iter()
            .map(|param| naming.type_(&param.type_))
            .collect();

        let outer = split_commas(self.outer_generics.to_vec());
        let own = split_commas(self.function.generics.clone());
        let mut generics: Vec<String> = outer.iter().map(|param| text(param)).collect();
        generics.extend(naming.lifetimes);
        generics.extend(own.iter().map(|param| text(param)));
        generics.extend(naming.bounded);
        let args: Vec<&str> = generics
            .iter()
            .map(|param| param.split(':').next().unwrap_or(param))
            .collect();
        Named {
            args: args.join(","),
            generics,
            types,
        }
    }
}

struct Named {
    generics: Vec<String>,
    args: String,
    types: Vec<String>,
}

fn setter(visibility: &str, name: &str, type_: &str) -> String {
    format!(
        "{visibility} fn {name}(mut self, value: {type_}) -> Self {{
            self.{name} = Some(value);
            self
        }}"
    )
}

/// Gives names to what a parameter's type may leave out and a field's may not.
#[derive(Default)]
struct Naming {
    lifetimes: Vec<String>,
    bounded: Vec<String>,
}

impl Naming {
    /// `impl Bound` as a type parameter; any other type with its lifetimes named.
    fn type_(&mut self, tokens: &[TokenTree]) -> String {
        match tokens {
            [first, bound @ ..] if is_ident(first, "impl") => {
                let name = format!("Impl{}", self.bounded.len());
                self.bounded.push(format!("{name}: {}", text(bound)));
                name
            }
            _ => self.lifetimes(tokens),
        }
    }

    fn lifetimes(&mut self, tokens: &[TokenTree]) -> String {
        let mut output = vec![];
        let mut walk = Walk::new(tokens.to_vec());
        while !walk.is_done() {
            let token = walk.next();
            let is_quote = is_punct(&token, '\'');
            let is_unnamed_ref = is_punct(&token, '&') && !walk.at_punct('\'');
            output.push(token);
            if is_quote && walk.at_ident("_") {
                walk.next();
                output.push(self.new_lifetime());
            } else if is_unnamed_ref {
                output.push(Punct::new('\'', Spacing::Joint).into());
                output.push(self.new_lifetime());
            }
        }
        text(&output)
    }

    /// A new lifetime's name, without its quote.
    fn new_lifetime(&mut self) -> TokenTree {
        let name = format!("elided{}", self.lifetimes.len());
        self.lifetimes.push(format!("'{name}"));
        Ident::new(&name, Span::call_site()).into()
    }
}

fn camel_case(name: &str) -> String {
    name.split('_')
        .flat_map(|word| {
            let (first, rest) = word.split_at(1);
            [first.to_uppercase(), rest.to_string()]
        })
        .collect()
}

fn parse(text: &str) -> TokenStream {
    text.parse().expect("generated code should be well formed")
}
