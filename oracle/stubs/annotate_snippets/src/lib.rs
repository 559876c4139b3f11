//! Stub: the types of a drawn message. Drawing writes the title alone: message texts are not compared
//! through it.

pub mod snippet {
    pub enum AnnotationType {
        Error,
    }

    pub struct Annotation<'a> {
        pub label: Option<&'a str>,
        pub id: Option<&'a str>,
        pub annotation_type: AnnotationType,
    }

    pub struct SourceAnnotation<'a> {
        pub label: &'a str,
        pub annotation_type: AnnotationType,
        pub range: (usize, usize),
    }

    pub struct Slice<'a> {
        pub source: &'a str,
        pub line_start: usize,
        pub origin: Option<&'a str>,
        pub fold: bool,
        pub annotations: Vec<SourceAnnotation<'a>>,
    }

    pub struct Snippet<'a> {
        pub title: Option<Annotation<'a>>,
        pub footer: Vec<Annotation<'a>>,
        pub slices: Vec<Slice<'a>>,
        pub opt: crate::display_list::FormatOptions,
    }
}

pub mod display_list {
    use std::fmt;

    use crate::snippet::Snippet;

    #[derive(Default)]
    pub struct FormatOptions {
        pub color: bool,
        pub anonymized_line_numbers: bool,
    }

    pub struct DisplayList<'a>(Snippet<'a>);

    impl<'a> From<Snippet<'a>> for DisplayList<'a> {
        fn from(snippet: Snippet<'a>) -> Self {
            DisplayList(snippet)
        }
    }

    impl fmt::Display for DisplayList<'_> {
        fn fmt(&self, f: &mut fmt::Formatter<'_>) -> fmt::Result {
            let title = self.0.title.as_ref().and_then(|t| t.label);
            f.write_str(title.unwrap_or(""))
        }
    }
}
