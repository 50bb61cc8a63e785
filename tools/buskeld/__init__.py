"""What the scripts in bin/ share: inputs and their places, the program held over a pipe, its printed text as data,
explanations of refusals, tests by what is shown, and pages. The standard library alone, Python 3.9 and later."""
