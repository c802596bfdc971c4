/* nlist.h: the values of symbols by name, nlist(3). */
#ifndef _NLIST_H
#define _NLIST_H 1

/* A symbol that is looked for; a list of them ends with one that has no name. */
struct nlist
{
  char *n_name;                 /* its name, which the program gives */
  long int n_value;             /* its value */
  short int n_scnum;            /* the section that it is in */
  unsigned short int n_type;    /* its type, STT_FUNC and the like */
  char n_sclass;                /* 0 */
  char n_numaux;                /* 0 */
};

#ifdef __cplusplus
extern "C" {
#endif

/* Finds the symbols of a list in a file; those that are not there get zeros. 0, or -1 where the
   file has no symbols to be read, and then all of them get zeros. */
extern int nlist (const char *filename, struct nlist *list);

#ifdef __cplusplus
}
#endif

#endif /* nlist.h */
