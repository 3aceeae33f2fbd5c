"""A language server for queries and rule files: `promql-rules lsp` (docs/guide/editor.md)."""
