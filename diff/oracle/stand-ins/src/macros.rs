// Stand-in for the macros: document.rs makes its empty documents by doc!.
macro_rules! doc {
    () => {
        $crate::Document::new()
    };
}
