"""dmremap-tools: commands that connect dmremap with what other tools print, and evaluate its answers.

The folders, and what each imports, which are folders above it alone:

    base        words, streams and texts, and how dmremap is asked
    formats     what stands on disks and in images: base
    model       what is found in images, as devices that have bytes: base formats
    requests    commands that make requests: base
    tables      commands that make FILE and DISKS: base model
    metadata    commands about metadata of LVM: base model
    layouts     commands about what lies where: base formats model
    answers     commands that evaluate answers: base formats model
    images      commands that find everything in images: base formats model answers
    explaining  why something is refused, and how an answer arises: base formats model

How to add a command:

1. Write the module `FOLDER/NAME.py`, with `_` for `-` in the name. Its docstring is what `--help` prints: what the
   command has, gets and refuses. Below stand
       EXAMPLE, a command line as a user would type it; and FORMS, if its words have several forms, for the manual;
       add_words(parser), which adds arguments to an `argparse` parser;
       run(words), which does it: `words` has what was typed, by the names of these arguments. It may return the
           status INCOMPLETE of `refusal`, where the answer is there but has gaps that were told.
2. Add a line to the list in `commands.py`: name, folder, summary, and whether dmremap reads what it prints.
3. Add rows to a module in `tests/outside`, a call to those in `tests/outside/tools/tool_streams.py`, and a task to
   `docs/RECIPES.md`. Run `tools/derive`, which writes the manual and the completions.

`base` has what all commands use, so that they behave alike. A command opens no output by itself, catches no OSError of
one, and never prints. A failing output, a closed pipe, an interrupt and wrong words end it in `main.py`.
"""
