/// The states of U(1), in the library's order. A state has one value for each edge, by number.
#[derive(Clone, Debug, PartialEq, Eq)]
pub struct States {
    pub(crate) n: usize,
    pub(crate) edges: usize,
    pub(crate) values: Vec<i32>,
}

impl States {
    /// How many states there are, at least 1.
    pub fn n_states(&self) -> usize {
        self.n
    }

    /// How many values a state has.
    pub fn n_edges(&self) -> usize {
        self.edges
    }

    /// The values of the state at a place. Panics where no state has the place.
    pub fn state(&self, place: usize) -> &[i32] {
        assert!(place < self.n, "there are {} states, and none has the place {place}", self.n);
        &self.values[place * self.edges..][..self.edges]
    }

    /// All states by place.
    pub fn iter(&self) -> impl ExactSizeIterator<Item = &[i32]> {
        (0..self.n).map(|place| self.state(place))
    }

    /// All values, state after state.
    pub fn values(&self) -> &[i32] {
        &self.values
    }

    /// The same, to keep.
    pub fn into_values(self) -> Vec<i32> {
        self.values
    }
}
