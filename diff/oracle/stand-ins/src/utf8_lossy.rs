// Stand-in for the wrapper that asks document.rs for its lossy conversion.
pub struct Utf8Lossy<T>(pub T);
