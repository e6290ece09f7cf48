//! A second reader and evaluator of case files, and the driver that compares a program with it.
//!
//! | file | holds |
//! |---|---|
//! | formula, constraint, case | values and formulas; kinds of constraints; what a case file says |
//! | cause | editions, causes with their choices, settings as numbers, minimal ones |
//! | cost | prices, what a setting costs, the cheapest explanation |
//! | tree, form, reading, file | a line as a tree, the form of a tree, what lines say, the checks of a file |
//! | model, completion | the step and its iterates; models of the weak completion |
//! | verdict, question, answer | the verdict on a query, minimal explanations, the text of the answer |
//! | layers, layers_answer | which atoms depend on which: least numbers and rings; what `layers` should write |
//! | lookup | a word compared with an entry of the names table |
//! | load, load_draws | a repeatable load: its text, its draws |
//! | held, writing | the record and the tables of a case; its text |
//! | plain, vectors | the plain form, the vectors of operations |
//! | random, names, prices, layout, families | drawn lawful files |
//! | shapes, text_edges, long_bodies | drawn files with chains and rings; files whose text stands at a limit; long bodies |
//! | overrides, edition_edges | drawn files with edition lines; such files at the limits |
//! | edges, cost_edges, body_edges, lists, damage, sample | files at the limits, damaged files, the file of a seed |
//! | run, compare, tally, row_tally, bench, check | the driver |
//! | kinds_tally, decided_tally, costs_tally, cheapest_tally | how many files tell wrong readings apart |
//! | bodies_tally, editions_tally | the same of bodies and of editions |
//! | drive | what the drivers of `layers`, `tidy` and `load` share |
//! | layers_tally, layers_check | the driver of the program `layers` |
//! | tidy_tally, tidy_check | the driver of the program `tidy` |
//! | lookup_pairs, lookup_tally, lookup_check | the driver of the program `compare`, and the pairs that it draws |
//! | load_calls, load_tally, load_check | the driver of the program `load`, and the calls that it draws |
//! | tables | tables of the manual |

pub mod answer;
pub mod bench;
pub mod bodies_tally;
pub mod body_edges;
pub mod case;
pub mod cause;
pub mod cheapest_tally;
pub mod check;
pub mod compare;
pub mod completion;
pub mod constraint;
pub mod cost;
pub mod cost_edges;
pub mod costs_tally;
pub mod damage;
pub mod decided_tally;
pub mod drive;
pub mod edges;
pub mod edition_edges;
pub mod editions_tally;
pub mod families;
pub mod file;
pub mod form;
pub mod formula;
pub mod held;
pub mod kinds_tally;
pub mod layers;
pub mod layers_answer;
pub mod layers_check;
pub mod layers_tally;
pub mod layout;
pub mod lists;
pub mod load;
pub mod load_calls;
pub mod load_check;
pub mod load_draws;
pub mod load_tally;
pub mod long_bodies;
pub mod lookup;
pub mod lookup_check;
pub mod lookup_pairs;
pub mod lookup_tally;
pub mod model;
pub mod names;
pub mod overrides;
pub mod plain;
pub mod prices;
pub mod question;
pub mod random;
pub mod reading;
pub mod row_tally;
pub mod run;
pub mod sample;
pub mod shapes;
pub mod tables;
pub mod tally;
pub mod text_edges;
pub mod tidy_check;
pub mod tidy_tally;
pub mod tree;
pub mod vectors;
pub mod verdict;
pub mod writing;
