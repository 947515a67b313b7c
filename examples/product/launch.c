/* Runs the kernel of product.cl on the first OpenCL device that is found, and compares the product with one made on the host:
   launch FILE, with the OpenCL C code in FILE. Ends with 0 where both are the same, and with 77 where there is no device. */
#define CL_TARGET_OPENCL_VERSION 120
#include <CL/cl.h>
#include <stdio.h>
#include <stdlib.h>

enum { N = 100, TILE = 16, LONGEST = 65536 };

static void check(cl_int status, const char *call) {
    if (status != CL_SUCCESS) {
        fprintf(stderr, "%s: %d\n", call, (int)status);
        exit(1);
    }
}

static cl_device_id first_device(void) {
    cl_platform_id platforms[8];
    cl_uint count = 0;
    if (clGetPlatformIDs(8, platforms, &count) == CL_SUCCESS) {
        for (cl_uint at = 0; at < count && at < 8; ++at) {
            cl_device_id device;
            if (clGetDeviceIDs(platforms[at], CL_DEVICE_TYPE_ALL, 1, &device, NULL) == CL_SUCCESS) {
                return device;
            }
        }
    }
    puts("no OpenCL device");
    exit(77);
}

static cl_program built(cl_context context, cl_device_id device, const char *name) {
    static char code[LONGEST];
    FILE *file = fopen(name, "rb");
    if (file == NULL) {
        perror(name);
        exit(1);
    }
    size_t length = fread(code, 1, sizeof code, file);
    fclose(file);
    const char *text = code;
    cl_int status;
    cl_program program = clCreateProgramWithSource(context, 1, &text, &length, &status);
    check(status, "clCreateProgramWithSource");
    check(clBuildProgram(program, 1, &device, "-cl-std=CL1.2", NULL, NULL), "clBuildProgram");
    return program;
}

static cl_mem matrix(cl_context context, cl_int *cells) {
    cl_int status;
    cl_mem made = clCreateBuffer(context, CL_MEM_READ_WRITE | CL_MEM_COPY_HOST_PTR, N * N * sizeof *cells, cells, &status);
    check(status, "clCreateBuffer");
    return made;
}

int main(int count, char **words) {
    if (count != 2) {
        fputs("usage: launch FILE\n", stderr);
        return 2;
    }
    static cl_int a[N * N], b[N * N], c[N * N];
    for (int at = 0; at < N * N; ++at) {
        a[at] = at % 7 - 3;
        b[at] = at % 5 - 2;
    }
    cl_device_id device = first_device();
    cl_int status;
    cl_context context = clCreateContext(NULL, 1, &device, NULL, NULL, &status);
    check(status, "clCreateContext");
    cl_command_queue queue = clCreateCommandQueue(context, device, 0, &status);
    check(status, "clCreateCommandQueue");
    cl_kernel kernel = clCreateKernel(built(context, device, words[1]), "loopw_kernel", &status);
    check(status, "clCreateKernel");

    /* The parameter, and then the arrays, in the order of the kernel's lines. */
    cl_long n = N;
    cl_mem arrays[3] = {matrix(context, a), matrix(context, b), matrix(context, c)};
    check(clSetKernelArg(kernel, 0, sizeof n, &n), "clSetKernelArg");
    for (cl_uint at = 0; at < 3; ++at) {
        check(clSetKernelArg(kernel, at + 1, sizeof arrays[at], &arrays[at]), "clSetKernelArg");
    }

    /* The first line of the code: lp_max(1, 1 + lp_fd(v_n - 1, 16)) groups of 16 items on the axes 0 and 1. */
    size_t groups = 1 + (N - 1) / TILE;
    size_t items[2] = {TILE, TILE}, all[2] = {groups * TILE, groups * TILE};
    check(clEnqueueNDRangeKernel(queue, kernel, 2, NULL, all, items, 0, NULL, NULL), "clEnqueueNDRangeKernel");
    check(clEnqueueReadBuffer(queue, arrays[2], CL_TRUE, 0, sizeof c, c, 0, NULL, NULL), "clEnqueueReadBuffer");

    for (int i = 0; i < N; ++i) {
        for (int j = 0; j < N; ++j) {
            cl_int sum = 0;
            for (int k = 0; k < N; ++k) {
                sum += a[i * N + k] * b[k * N + j];
            }
            if (c[i * N + j] != sum) {
                printf("c[%d, %d] is %d and not %d\n", i, j, (int)c[i * N + j], (int)sum);
                return 1;
            }
        }
    }
    printf("all %d elements are as wanted\n", N * N);
    return 0;
}
