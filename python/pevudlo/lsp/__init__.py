"""`paris lsp`: a language server, over which editors show what each line of a script gives while it is typed."""
