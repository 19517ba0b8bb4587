/* over.h: what a test is built over, by one set of names: the archive, by the calls of include/fouterpin.h; with -DOVER_MODEL tests/c/model.c;
   with -DOVER_PLAIN bench/plain.c. */
#ifndef OVER_H
#define OVER_H

#ifdef OVER_MODEL
#include "model.h"
#define CALL(name) model_##name
typedef model_record record;
typedef model_answer answer;
typedef model_collected collected;
#else
#include "fouterpin.h"
#ifdef OVER_PLAIN
#include "plain.h"
#define CALL(name) plain_##name
#else
#define CALL(name) fouterpin_##name
#endif
typedef fouterpin_record record;
typedef fouterpin_answer answer;
typedef fouterpin_collected collected;
#endif

#endif
