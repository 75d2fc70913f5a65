// Stand-in for src/element/element_writer.rs: nothing in it is used by what is compiled.
