/* A cosh made up so that calls end in refusal 8: infinity from 1 on. Linked before libcapi.a it takes the routine's place, and the grid must then fail. Its definition
   changed along with it, the proved facts refuse it too: crates/exponential/must-fail/cosh_made_up_to_overflow.edit. */
double lichenoar_cosh(double);

double lichenoar_cosh(double x) { return x < 1.0 && x > -1.0 ? 1.0 + 0.5 * x * x : 1.0 / 0.0; }
