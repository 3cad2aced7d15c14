"""The planner `bin/cluster`: verbs that drive `bin/tcm` and never compute a placement themselves."""
