"""What the scripts of bench/ share: children that are measured, the schema, the texts, the
programs that answer them, reports."""
