"""Translates the proved MIR of Rattle crates to C99: one file that stands where the compiler's LLVM backend stands.

Reading order: `mir` (the JSON, checked), `types` and `layout` (types with their parameters filled in, and as C), `tree` (a function's
statements), `values` and `fold` (fewer and better named locals), `expressions`, `operators` and `lanes` (what C expressions compute),
`statements`, `scopes` and `function` (C functions), `program` (all that the exports reach), `shims` (the exports themselves), `text` (the file),
`translate` (all of it).

A construct, key or tag that the translator doesn't know raises `Unsupported`, and the translation stops with the function's name.
"""
