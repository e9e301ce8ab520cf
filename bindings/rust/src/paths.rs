/// The paths of nodes, by their numbers. Each is a part of one text, which a path shares with those above it.
#[derive(Default)]
pub(crate) struct Paths {
    pub(crate) text: String,
    pub(crate) places: Vec<Place>,
}

/// Where a path stands in the text, and where its last name begins there.
#[derive(Clone, Copy)]
pub(crate) struct Place {
    pub(crate) start: usize,
    pub(crate) name: usize,
    pub(crate) end: usize,
}

impl Paths {
    pub(crate) fn len(&self) -> usize {
        self.places.len()
    }

    #[inline]
    pub(crate) fn path(&self, number: u32) -> &str {
        let place = self.places[number as usize];
        &self.text[place.start..place.end]
    }

    pub(crate) fn name(&self, number: u32) -> &str {
        let place = self.places[number as usize];
        &self.text[place.name..place.end]
    }

    pub(crate) fn iter(&self) -> impl ExactSizeIterator<Item = &str> {
        self.places.iter().map(|it| &self.text[it.start..it.end])
    }

    /// Adds a text, and gives where it begins.
    pub(crate) fn add(&mut self, text: &str) -> usize {
        let start = self.text.len();
        self.text.push_str(text);
        start
    }

    /// Adds a path that shares nothing.
    pub(crate) fn push(&mut self, path: &str) {
        let start = self.add(path);
        let end = self.text.len();
        let name = start + path.rfind('/').map_or(0, |at| at + 1);
        self.places.push(Place { start, name, end });
    }
}

/// The names on the way down a path, if it is one from the root down.
pub(crate) fn names_of(path: &str) -> Option<impl Iterator<Item = &str>> {
    let names = path.strip_prefix('/')?;
    let is_path = names.is_empty() || names.split('/').all(|name| !name.is_empty());
    is_path.then(|| names.split_terminator('/'))
}
