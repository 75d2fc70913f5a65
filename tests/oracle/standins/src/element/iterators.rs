// Stand-in for src/element/iterators.rs: nothing in it is used by what is compiled.
