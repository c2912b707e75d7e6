/* The checks of each file. */
#ifndef SUITES_H
#define SUITES_H

#ifdef __cplusplus
extern "C" {
#endif

void check_casebooks(void);
void check_verdicts(void);
void check_splittings(void);
void check_cuts(void);
void check_quotients(void);
void check_line_office(void);
void check_sheets(void);
void check_aldebaran(void);
void check_from_cpp(void);

#ifdef __cplusplus
}
#endif

#endif
