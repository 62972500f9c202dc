"""C structs and Python dataclasses for the messages that a file of Rust declarations declares.

`python3 postcard_types c FILE` writes a header and a source for C, `python3 postcard_types python FILE` a module for Python. A file is
read in these steps, one module each:

- `tokens`: its words, signs and literals
- `declarations`: which items it declares
- `syntax` and `items`: the parts of a declaration, as they are written
- `attributes`: what the attributes of a field or a type say
- `concrete` and `known`: the types that they mean, with type parameters replaced, as `model` has them

`expressions` prints a type as an expression of the program `pcard`. `c_names`, `c_types`, `c_functions` and `c_files` write C;
`python_names` and `python_files` write Python. Python 3.8 or newer, without other packages.
"""
