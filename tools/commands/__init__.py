"""The subcommands of `loitsupar`, a module each with a function main over the words after the subcommand's name."""
