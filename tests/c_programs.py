"""C programs that call written codes with the arguments of a kernel and print what the output arrays hold then."""

C_KINDS = {"int32": "int32_t", "int64": "int64_t", "uint32": "uint32_t", "uint64": "uint64_t"}
HELPERS = ["loopw_kernel", "lp_fd", "lp_min", "lp_max"]
HELPERS += [f"lp_{word}_{kind}" for word in ("min", "max") for kind in ("i32", "i64", "u32", "u64")]
HEAD = "#define _GNU_SOURCE\n#include <stdint.h>\n#include <stdio.h>\n#include <stdlib.h>\n"
OPENCL = """#include <pthread.h>
#define uint unsigned int
#define ulong unsigned long
#define __kernel
#define __global
#define __local static
#define CLK_LOCAL_MEM_FENCE 1
#define CLK_GLOBAL_MEM_FENCE 2
#define barrier(fences) pthread_barrier_wait(&all_items)
#define get_group_id(axis) group_numbers[axis]
#define get_local_id(axis) item_numbers[axis]
static pthread_barrier_t all_items;
static long group_numbers[3];
static __thread long item_numbers[3];
"""


def filled(kernel):
    """Lines that make each array and fill it with its words, and the arguments of a call."""
    lines, names = [], [f"INT64_C({number})" for number in kernel.parameters.values()]
    for cell in kernel.arrays:
        words = kernel.list_of(kernel.words, cell)
        kind = C_KINDS[cell.kind]
        lines.append(f"  static const uint64_t w_{cell.name}[] = {{{', '.join(f'{word % 2 ** 64}u' for word in words) or '0'}}};")
        lines.append(f"  {kind} *{cell.name} = malloc({len(words)} * sizeof({kind}));")
        lines.append(f"  for (int at = 0; at < {len(words)}; ++at) {cell.name}[at] = ({kind})w_{cell.name}[at];")
        names.append(cell.name)
    return lines, names


def printed(kernel):
    lines = []
    for cell in kernel.arrays:
        count = len(kernel.list_of(kernel.words, cell))
        if cell.sort == "output":
            form, kind = ("%lld", "long long") if cell.kind[0] == "i" else ("%llu", "unsigned long long")
            lines.append(f'  printf("{cell.name} =");')
            lines.append(f'  for (int at = 0; at < {count}; ++at) printf(" {form}", ({kind}){cell.name}[at]);')
            lines.append('  printf("\\n");')
        lines.append(f"  free({cell.name});")
    return lines


def c_program(kernel, codes):
    """A program that calls each of the C codes on arrays of its own."""
    text = [HEAD]
    for number, code in enumerate(codes):
        text += [f"#undef {name}\n#define {name} {name}_{number}" for name in HELPERS]
        text += [code, f"static void call_{number}(void) {{"]
        lines, names = filled(kernel)
        text += lines + [f"  loopw_kernel({', '.join(names)});"] + printed(kernel) + ["}"]
    text += ["int main(void) {"] + [f"  call_{number}();" for number in range(len(codes))] + ["  return 0;", "}"]
    return "\n".join(text) + "\n"


def in_brackets(text):
    """The parts of a text in brackets, as `[1] [2]` has two."""
    return [part.split("]")[0] for part in text.split("[")[1:]]


def opencl_program(kernel, code):
    """A program that runs the OpenCL code with a thread for each item of a group, group after group, the last one first."""
    launch = code.split("\n", 1)[0]
    groups, items = (in_brackets(part) for part in launch.split(" groups ")[1].split(" items "))
    lines, names = filled(kernel)
    text = [HEAD, OPENCL, code]
    text += [f"static {C_KINDS[cell.kind]} *g_{cell.name};" for cell in kernel.arrays]
    called = ", ".join(f"({kind} *)g_{cell.name}" for cell, kind in ((cell, opencl_kind(cell.kind)) for cell in kernel.arrays))
    arguments = ", ".join([*names[:len(kernel.parameters)], called]) if called else ", ".join(names[:len(kernel.parameters)])
    text += [
        f"static const long items[3] = {{{', '.join(items)}}};",
        "static void *run_item(void *place) {",
        "  long number = (long)(intptr_t)place;",
        "  item_numbers[0] = number % items[0];",
        "  item_numbers[1] = number / items[0] % items[1];",
        "  item_numbers[2] = number / items[0] / items[1];",
        f"  loopw_kernel({arguments});",
        "  return NULL;",
        "}",
        "int main(void) {",
        *(f"  const long v_{name} = {number};" for name, number in kernel.parameters.items()),
        *(f"  (void)v_{name};" for name in kernel.parameters),
        *lines,
        *(f"  g_{cell.name} = {cell.name};" for cell in kernel.arrays),
        f"  const long groups[3] = {{{', '.join(groups)}}};",
        "  const long count = items[0] * items[1] * items[2];",
        "  pthread_t *threads = malloc(count * sizeof(pthread_t));",
        "  for (long group = groups[0] * groups[1] * groups[2] - 1; group >= 0; --group) {",
        "    group_numbers[0] = group % groups[0];",
        "    group_numbers[1] = group / groups[0] % groups[1];",
        "    group_numbers[2] = group / groups[0] / groups[1];",
        "    pthread_barrier_init(&all_items, NULL, count);",
        "    for (long at = 0; at < count; ++at) if (pthread_create(&threads[at], NULL, run_item, (void *)(intptr_t)at)) return 77;",
        "    for (long at = 0; at < count; ++at) pthread_join(threads[at], NULL);",
        "    pthread_barrier_destroy(&all_items);",
        "  }",
        "  free(threads);",
        *printed(kernel),
        "  return 0;",
        "}",
    ]
    return "\n".join(text) + "\n"


def opencl_kind(kind):
    return {"int32": "int", "int64": "long", "uint32": "uint", "uint64": "ulong"}[kind]
