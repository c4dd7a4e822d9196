"""By what tools/check_straighten judges: closed formulas of arcs, the model of tools/model, and rows. Of the tool's own code only
what it answers is used."""
