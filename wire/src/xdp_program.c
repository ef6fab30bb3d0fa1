#include "xdp_program.h"

#include "wire.h"

#include <bpf/bpf.h>
#include <bpf/libbpf.h>
#include <errno.h>
#include <linux/bpf.h>
#include <linux/if_link.h>
#include <stdio.h>
#include <string.h>
#include <unistd.h>

/* The frame's queue chooses its socket. Where none is there, as before one is bound and once the process has died, the frame goes to the
 * other card; and where that fails, to the kernel's own stack. */
static int load(int sockets, int other) {
    struct bpf_insn steps[] = {
        { .code = BPF_LDX | BPF_MEM | BPF_W, .dst_reg = 2, .src_reg = 1, .off = offsetof(struct xdp_md, rx_queue_index) },
        { .code = BPF_LD | BPF_DW | BPF_IMM, .dst_reg = 1, .src_reg = BPF_PSEUDO_MAP_FD, .imm = sockets },
        { 0 },
        { .code = BPF_ALU64 | BPF_MOV | BPF_K, .dst_reg = 3, .imm = XDP_ABORTED },
        { .code = BPF_JMP | BPF_CALL, .imm = BPF_FUNC_redirect_map },
        { .code = BPF_JMP | BPF_JEQ | BPF_K, .dst_reg = 0, .imm = XDP_REDIRECT, .off = 5 },
        { .code = BPF_LD | BPF_DW | BPF_IMM, .dst_reg = 1, .src_reg = BPF_PSEUDO_MAP_FD, .imm = other },
        { 0 },
        { .code = BPF_ALU64 | BPF_MOV | BPF_K, .dst_reg = 2, .imm = 0 },
        { .code = BPF_ALU64 | BPF_MOV | BPF_K, .dst_reg = 3, .imm = XDP_PASS },
        { .code = BPF_JMP | BPF_CALL, .imm = BPF_FUNC_redirect_map },
        { .code = BPF_JMP | BPF_EXIT },
    };
    return bpf_prog_load(BPF_PROG_TYPE_XDP, "qtree_wire", "GPL", steps, sizeof steps / sizeof steps[0], NULL);
}

/* A driver that cannot run it has the kernel's stack run it, which is slower. */
static bool attach(struct xdp_program *program, const char *card) {
    program->flags = XDP_FLAGS_DRV_MODE;
    if (bpf_xdp_attach(program->card, program->fd, program->flags, NULL) == 0) {
        return true;
    }
    program->flags = XDP_FLAGS_SKB_MODE;
    if (bpf_xdp_attach(program->card, program->fd, program->flags, NULL) != 0) {
        return false;
    }
    fprintf(stderr, "qtree-wire: %s: its driver takes no XDP program, so the kernel's stack runs it\n", card);
    return true;
}

bool xdp_program_attach(struct xdp_program *program, const char *card, const char *other) {
    int first = 0, index = (int)if_nametoindex(other);
    int by = bpf_map_create(BPF_MAP_TYPE_DEVMAP, "qtree_wire_by", 4, 4, 1, NULL);
    program->card = (int)if_nametoindex(card);
    program->sockets = bpf_map_create(BPF_MAP_TYPE_XSKMAP, "qtree_wire", 4, 4, MOST_INPUTS, NULL);
    program->fd = -1;
    if (by >= 0 && program->sockets >= 0 && bpf_map_update_elem(by, &first, &index, 0) == 0) {
        program->fd = load(program->sockets, by);
    }
    bool is_attached = program->fd >= 0 && attach(program, card);
    if (!is_attached) {
        fprintf(stderr, "qtree-wire: %s: the XDP program: %s\n", card, strerror(errno));
    }
    if (by >= 0) {
        close(by);
    }
    return is_attached;
}

bool xdp_program_add(struct xdp_program *program, uint32_t queue, int socket) {
    return bpf_map_update_elem(program->sockets, &queue, &socket, 0) == 0;
}

void xdp_program_detach(struct xdp_program *program, bool keeps_passing) {
    if (program->fd > 0 && !keeps_passing) {
        bpf_xdp_detach(program->card, program->flags, NULL);
    }
    if (program->fd > 0) {
        close(program->fd);
        close(program->sockets);
    }
}
