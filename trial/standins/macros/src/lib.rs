//! Stand-ins for the macros of `bon`, `byte` and `thiserror`, as far as the unchanged files use them.

mod builder;
mod tokens;
mod try_write;

use proc_macro::TokenStream;

/// `#[builder]` on a free function: setters by name, then `build`.
#[proc_macro_attribute]
pub fn builder(_options: TokenStream, item: TokenStream) -> TokenStream {
    builder::of_function(item)
}

/// `#[bon]` on an impl whose `#[builder] fn new` gets setters by name, then `build`.
#[proc_macro_attribute]
pub fn bon(_options: TokenStream, item: TokenStream) -> TokenStream {
    builder::of_impl(item)
}

/// Lists an item's tag and fields as its declaration gives them.
#[proc_macro_derive(TryWrite, attributes(byte))]
pub fn try_write(item: TokenStream) -> TokenStream {
    try_write::derive(item)
}

/// Nothing is read back.
#[proc_macro_derive(TryRead, attributes(byte))]
pub fn try_read(_item: TokenStream) -> TokenStream {
    TokenStream::new()
}

/// Nothing is measured.
#[proc_macro_derive(Measure, attributes(byte))]
pub fn measure(_item: TokenStream) -> TokenStream {
    TokenStream::new()
}

/// No message is printed: errors are told apart by their variants.
#[proc_macro_derive(Error, attributes(error, from))]
pub fn error(_item: TokenStream) -> TokenStream {
    TokenStream::new()
}
