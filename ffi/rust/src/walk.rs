//! A walk through the values of a document.
use crate::{double_of, raw, type_of, Error, Handle, Result, Type, Value};

/// The values of a document, one after another. It owns them and their texts: the document may be dropped before.
///
/// It may move to another thread, and threads may share it: it is `Send` and `Sync`.
///
/// ```
/// let walk = jiter_c::Document::parse(br#"[1, {"a": "b"}]"#)?.walk()?;
/// let second = walk.root().first_child().unwrap().next_sibling().unwrap();
/// let member = second.first_child().unwrap();
/// assert_eq!((member.key(), member.text()), (Some("a"), Some("b")));
/// # Ok::<(), jiter_c::Error>(())
/// ```
pub struct Walk {
    nodes: Vec<raw::Node>,
    texts: String,
}

/// A value of a walk. Each call takes constant time.
#[derive(Clone, Copy)]
pub struct Node<'w> {
    walk: &'w Walk,
    index: usize,
    is_member: bool,
}

/// Returns an empty vector with this capacity.
fn with_capacity<T>(count: usize) -> Result<Vec<T>> {
    let mut items = Vec::new();
    items.try_reserve_exact(count).map_err(|_| Error::memory())?;
    Ok(items)
}

impl Walk {
    pub(crate) fn of(document: &Handle) -> Result<Walk> {
        let (mut count, mut length, handle) = (0, 0, &mut document.0.borrow_mut());
        unsafe { raw::jiter_document_count(handle, &mut count, &mut length) };
        let (mut nodes, mut texts) = (with_capacity(count)?, with_capacity(length)?);
        nodes.resize(count, raw::Node::default());
        texts.resize(length, 0);
        unsafe { raw::jiter_document_nodes(handle, nodes.as_mut_ptr(), count, texts.as_mut_ptr(), length) };
        Ok(Walk { nodes, texts: crate::utf8(texts) })
    }

    /// Returns the document's value.
    pub fn root(&self) -> Node<'_> {
        Node { walk: self, index: 0, is_member: false }
    }
}

impl<'w> Node<'w> {
    fn raw(&self) -> &'w raw::Node {
        &self.walk.nodes[self.index]
    }

    /// Returns the value: its type, and what it is or how long.
    ///
    /// ```
    /// let walk = jiter_c::Document::parse(b"-7")?.walk()?;
    /// assert_eq!(walk.root().value().integer, -7);
    /// # Ok::<(), jiter_c::Error>(())
    /// ```
    pub fn value(&self) -> Value {
        let &raw::Node { kind, truth, integer, .. } = self.raw();
        let is_int = type_of(kind) == Some(Type::Int);
        let (integer, length) = if is_int { (integer, 0) } else { (0, integer as usize) };
        Value::of(raw::Value { kind, truth: truth == 1, integer, length })
    }

    /// Returns the type.
    pub fn kind(&self) -> Type {
        self.value().kind
    }

    /// Returns the key, decoded, if the value is that of a member.
    pub fn key(&self) -> Option<&'w str> {
        let &raw::Node { text, key_length, .. } = self.raw();
        self.is_member.then(|| &self.walk.texts[text - key_length..text])
    }

    /// Returns the string, decoded, or the source text of a number that is no `Int`; `None` for other values.
    pub fn text(&self) -> Option<&'w str> {
        let (begin, value) = (self.raw().text, self.value());
        matches!(value.kind, Type::String | Type::Float | Type::BigInt).then(|| &self.walk.texts[begin..begin + value.length])
    }

    /// Returns the double nearest to a number, whichever it is; `None` for other values.
    ///
    /// ```
    /// let walk = jiter_c::Document::parse(b"[1, 2.5, true]")?.walk()?;
    /// let doubles: Vec<_> = walk.root().children().map(|it| it.double()).collect();
    /// assert_eq!(doubles, [Some(1.0), Some(2.5), None]);
    /// # Ok::<(), jiter_c::Error>(())
    /// ```
    pub fn double(&self) -> Option<f64> {
        match self.kind() {
            Type::Int => Some(self.raw().integer as f64),
            Type::Float | Type::BigInt => self.text().map(double_of),
            _ => None,
        }
    }

    fn at(&self, index: usize, is_member: bool) -> Node<'w> {
        Node { walk: self.walk, index, is_member }
    }

    /// Returns the first item or member.
    pub fn first_child(&self) -> Option<Node<'w>> {
        let Value { kind, length, .. } = self.value();
        (matches!(kind, Type::Array | Type::Object) && length > 0).then(|| self.at(self.index + 1, kind == Type::Object))
    }

    /// Returns the next item or member of the same array or object.
    pub fn next_sibling(&self) -> Option<Node<'w>> {
        (self.raw().next > 0).then(|| self.at(self.index + self.raw().next, self.is_member))
    }

    /// Returns the items of an array or the members of an object, in order.
    ///
    /// ```
    /// let walk = jiter_c::Document::parse(br#"{"a": 1, "b": 2}"#)?.walk()?;
    /// let sum: i64 = walk.root().children().map(|it| it.value().integer).sum();
    /// assert_eq!(sum, 3);
    /// # Ok::<(), jiter_c::Error>(())
    /// ```
    pub fn children(&self) -> Children<'w> {
        Children(self.first_child())
    }
}

/// The items or members of a value. See [`Node::children`].
pub struct Children<'w>(Option<Node<'w>>);

impl<'w> Iterator for Children<'w> {
    type Item = Node<'w>;

    fn next(&mut self) -> Option<Node<'w>> {
        let here = self.0.take()?;
        self.0 = here.next_sibling();
        Some(here)
    }
}
