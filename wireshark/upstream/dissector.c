/* packet-netlink-tc.c
 * Routines for the traffic control part of Linux rtnetlink
 * Copyright 2026, the authors of Conjareho
 *
 * Wireshark - Network traffic analyzer
 * By Gerald Combs <gerald@wireshark.org>
 * Copyright 1998 Gerald Combs
 *
 * SPDX-License-Identifier: MIT
 */

/* Queueing disciplines, classes, filters, chains and actions (RTM_NEWQDISC to
 * RTM_GETACTION, RTM_NEWCHAIN to RTM_GETCHAIN). packet-netlink-route.c
 * dissects the netlink header and calls this dissector for the rest.
 *
 * The attributes are in tables, which follow the Linux kernel's headers:
 * include/uapi/linux/rtnetlink.h
 * include/uapi/linux/pkt_sched.h
 * include/uapi/linux/pkt_cls.h
 * include/uapi/linux/tc_act/
 */

#include "config.h"

#include <string.h>

#include <epan/packet.h>
#include <epan/expert.h>
#include <epan/unit_strings.h>
#include <wsutil/ws_roundup.h>

#include "packet-netlink.h"

void proto_register_netlink_tc(void);

/* The byte order of the host, as of the netlink header. */
#define ENC_HOST 0xffffffff

/* Attributes within attributes. The kernel's own are never deeper than this. */
#define TC_DEPTH_MAX 24

#define WS_RTM_NEWTFILTER 44
#define WS_RTM_NEWACTION 48
#define WS_RTM_GETACTION 50
#define WS_TCA_ACT_KIND 1

enum tc_sort {
	TC_ITEM,                /* a field */
	TC_KIND,                /* a field that says what options are */
	TC_BITS,                /* a field whose bits have fields */
	TC_PAD,                 /* bytes without a meaning */
	TC_RECORD,              /* a structure of the kernel */
	TC_ARRAY,               /* the same form again to the end */
	TC_CHOICE,              /* the first form that the bytes follow */
	TC_LIST,                /* attributes */
	TC_INDEXED,             /* attributes of any type, all of the same form */
	TC_OPTIONS,             /* what the kind says, and else another form */
	TC_STATISTICS,
	TC_OPTIONS_OF_ACTION
};

/* How bytes are shown. */
typedef struct {
	int sort;
	int length;             /* of a record the least number of bytes; -1: any number */
	guint encoding;
	int *hf;
	const void *more;       /* bits, fields of a record, a list, an element, forms of a choice */
	int count;              /* of these; of a list 1 if its first kind is that of all */
} tc_node;

typedef struct {
	int type;
	tc_node node;
} tc_attr;

typedef struct {
	int *hf_type;
	const tc_attr *attrs;
	int count;
} tc_list;

typedef struct {
	const char *start;      /* what the bytes begin with */
	int start_length;
	int length;             /* how many there are; -1: any number */
	tc_node node;
} tc_choice;

typedef struct {
	const char *name;
	const tc_node *options;
	const tc_node *statistics;
} tc_kind;

/* What the dissection of a message knows. */
typedef struct {
	packet_info *pinfo;
	const tc_list *list;    /* that of the attributes which are gone through */
	const tc_node *element; /* that of each, if they are of any type */
	const char *kind;
	gboolean has_own_kind;  /* which no other changes */
	int depth;
} tc_info;

static int proto_netlink_tc = -1;

static int hf_tc_priority = -1;
static int hf_tc_eth_type = -1;
static int hf_tc_rest = -1;
static int hf_tc_order = -1;
/* @FIELDS@ */

static expert_field ei_tc_length = EI_INIT;
static expert_field ei_tc_depth = EI_INIT;

static gint ett_tc = -1;
static gint ett_tc_attr = -1;
static gint ett_tc_record = -1;
static gint ett_tc_bits = -1;

/* A handle is two numbers: the qdisc's, and that of a class in it. */
static void
format_handle(gchar *text, guint32 handle)
{
	if (handle == 0xffffffff)
		snprintf(text, ITEM_LABEL_LENGTH, "root");
	else if (handle == 0xfffffff1)
		snprintf(text, ITEM_LABEL_LENGTH, "ingress");
	else if (handle == 0)
		snprintf(text, ITEM_LABEL_LENGTH, "none");
	else if ((handle & 0xffff) == 0)
		snprintf(text, ITEM_LABEL_LENGTH, "%x:", handle >> 16);
	else
		snprintf(text, ITEM_LABEL_LENGTH, "%x:%x", handle >> 16, handle & 0xffff);
}

/* @NAMES@ */
/* @TABLES@ */
static const tc_kind *
find_kind(const tc_kind *kinds, int count, const char *name)
{
	int i;

	for (i = 0; name && i < count; i++) {
		if (strcmp(kinds[i].name, name) == 0)
			return &kinds[i];
	}
	return NULL;
}

static int dissect_tc_node(tvbuff_t *tvb, tc_info *info, struct packet_netlink_data *nl_data, proto_tree *tree, int offset, int len, const tc_node *node);

/* Whether a form takes all bytes that are left. Of a record that is up to its last field. */
static gboolean
takes_rest(const tc_node *node)
{
	while (node->sort == TC_RECORD && node->count > 0)
		node = (const tc_node *)node->more + (node->count - 1);
	return node->length < 0;
}

static int
dissect_tc_record(tvbuff_t *tvb, tc_info *info, struct packet_netlink_data *nl_data, proto_tree *tree, int offset, int len, const tc_node *node)
{
	const tc_node *field = (const tc_node *)node->more;
	int i, end = offset + len;

	if (node->hf)
		tree = proto_item_add_subtree(proto_tree_add_item(tree, *node->hf, tvb, offset, len, ENC_NA), ett_tc_record);
	for (i = 0; i < node->count; i++, field++) {
		int size = takes_rest(field) ? end - offset : field->length;

		dissect_tc_node(tvb, info, nl_data, tree, offset, size, field);
		offset += size;
	}
	if (offset < end)
		proto_tree_add_item(tree, hf_tc_rest, tvb, offset, end - offset, ENC_NA);
	return 1;
}

static int
dissect_tc_array(tvbuff_t *tvb, tc_info *info, struct packet_netlink_data *nl_data, proto_tree *tree, int offset, int len, const tc_node *node)
{
	const tc_node *element = (const tc_node *)node->more;
	int end = offset + len;

	while (offset < end) {
		int size = element->length > 0 && !takes_rest(element) ? MIN(element->length, end - offset) : end - offset;

		if (!dissect_tc_node(tvb, info, nl_data, tree, offset, size, element))
			proto_tree_add_item(tree, hf_tc_rest, tvb, offset, size, ENC_NA);
		offset += size;
	}
	return 1;
}

static int
dissect_tc_choice(tvbuff_t *tvb, tc_info *info, struct packet_netlink_data *nl_data, proto_tree *tree, int offset, int len, const tc_node *node)
{
	const tc_choice *choice = (const tc_choice *)node->more;
	int i;

	for (i = 0; i < node->count; i++, choice++) {
		if (choice->length >= 0 && choice->length != len)
			continue;
		if (choice->start_length > len)
			continue;
		if (choice->start_length && tvb_memeql(tvb, offset, (const guint8 *)choice->start, choice->start_length) != 0)
			continue;
		return dissect_tc_node(tvb, info, nl_data, tree, offset + choice->start_length, len - choice->start_length, &choice->node);
	}
	return 0;
}

/* A kind, without the NUL that ends it. NULL if it isn't UTF-8. */
static const char *
kind_of(tvbuff_t *tvb, tc_info *info, int offset, int len)
{
	if (len > 0 && tvb_get_guint8(tvb, offset + len - 1) == 0)
		len--;
	if (tvb_find_guint8(tvb, offset, len, 0) >= 0)
		return "";
	if (!g_utf8_validate((const char *)tvb_get_ptr(tvb, offset, len), len, NULL))
		return NULL;
	return (const char *)tvb_get_string_enc(info->pinfo->pool, tvb, offset, len, ENC_UTF_8);
}

/* The kind that an action has among its attributes. */
static const char *
own_kind(tvbuff_t *tvb, tc_info *info, struct packet_netlink_data *nl_data, int offset, int len)
{
	while (len >= 4) {
		int nla_len = tvb_get_guint16(tvb, offset, nl_data->encoding);
		int nla_type = tvb_get_guint16(tvb, offset + 2, nl_data->encoding) & NLA_TYPE_MASK;

		if (nla_len < 4 || nla_len > len)
			break;
		if (nla_type == WS_TCA_ACT_KIND && kind_of(tvb, info, offset + 4, nla_len - 4))
			return kind_of(tvb, info, offset + 4, nla_len - 4);
		nla_len = WS_ROUNDUP_4(nla_len);
		offset += nla_len;
		len -= nla_len;
	}
	return NULL;
}

static int
dissect_tc_attrs(tvbuff_t *tvb, void *data, struct packet_netlink_data *nl_data, proto_tree *tree, int nla_type, int offset, int len)
{
	tc_info *info = (tc_info *)data;
	int i, type = nla_type & NLA_TYPE_MASK;

	if (info->element)
		return dissect_tc_node(tvb, info, nl_data, tree, offset, len, info->element);
	for (i = 0; i < info->list->count; i++) {
		if (info->list->attrs[i].type == type)
			return dissect_tc_node(tvb, info, nl_data, tree, offset, len, &info->list->attrs[i].node);
	}
	return 0;
}

/* Attributes of a list, or of any type with the same form. */
static int
dissect_tc_list(tvbuff_t *tvb, tc_info *info, struct packet_netlink_data *nl_data, proto_tree *tree, int offset, int len, const tc_node *node)
{
	tc_info saved = *info;
	int hf_type;

	if (info->depth >= TC_DEPTH_MAX) {
		proto_tree_add_expert(tree, info->pinfo, &ei_tc_depth, tvb, offset, len);
		return 0;
	}
	info->depth++;
	if (node->sort == TC_LIST) {
		info->list = (const tc_list *)node->more;
		info->element = NULL;
		info->has_own_kind = node->count > 0;
		hf_type = *info->list->hf_type;
		if (node->count) {
			info->kind = own_kind(tvb, info, nl_data, offset, len);
			if (info->kind)
				proto_item_append_text(proto_tree_get_parent(tree), ": %s", info->kind);
		}
	} else {
		info->element = (const tc_node *)node->more;
		hf_type = hf_tc_order;
	}
	dissect_netlink_attributes(tvb, hf_type, ett_tc_attr, info, nl_data, tree, offset, len, dissect_tc_attrs);
	*info = saved;
	return 1;
}

/* What the kind says, or the other form. */
static int
dissect_tc_by_kind(tvbuff_t *tvb, tc_info *info, struct packet_netlink_data *nl_data, proto_tree *tree, int offset, int len, const tc_node *node)
{
	const tc_kind *kind = node->sort == TC_OPTIONS_OF_ACTION ?
		find_kind(kinds_action, array_length(kinds_action), info->kind) :
		find_kind(kinds_tc, array_length(kinds_tc), info->kind);
	const tc_node *own = NULL;

	if (kind)
		own = node->sort == TC_STATISTICS ? kind->statistics : kind->options;
	return dissect_tc_node(tvb, info, nl_data, tree, offset, len, own ? own : (const tc_node *)node->more);
}

/* Shows bytes, and returns 0 if they aren't of the form: they are shown as data then. */
static int
dissect_tc_node(tvbuff_t *tvb, tc_info *info, struct packet_netlink_data *nl_data, proto_tree *tree, int offset, int len, const tc_node *node)
{
	guint encoding = node->encoding == ENC_HOST ? (guint)nl_data->encoding : node->encoding;

	if (node->sort == TC_RECORD ? len < node->length : node->length >= 0 && len != node->length) {
		proto_tree_add_expert(tree, info->pinfo, &ei_tc_length, tvb, offset, len);
		return 0;
	}
	switch (node->sort) {
	case TC_KIND:
		if (!info->has_own_kind && kind_of(tvb, info, offset, len)) {
			info->kind = kind_of(tvb, info, offset, len);
			proto_item_append_text(proto_tree_get_parent(tree), ": %s", info->kind);
		}
		/* FALLTHROUGH */
	case TC_ITEM:
		proto_tree_add_item(tree, *node->hf, tvb, offset, len, encoding);
		return 1;
	case TC_BITS:
		proto_tree_add_bitmask(tree, tvb, offset, *node->hf, ett_tc_bits, (int * const *)node->more, encoding);
		return 1;
	case TC_PAD:
		return 1;
	case TC_RECORD:
		return dissect_tc_record(tvb, info, nl_data, tree, offset, len, node);
	case TC_ARRAY:
		return dissect_tc_array(tvb, info, nl_data, tree, offset, len, node);
	case TC_CHOICE:
		return dissect_tc_choice(tvb, info, nl_data, tree, offset, len, node);
	case TC_LIST:
	case TC_INDEXED:
		return dissect_tc_list(tvb, info, nl_data, tree, offset, len, node);
	default:
		return dissect_tc_by_kind(tvb, info, nl_data, tree, offset, len, node);
	}
}

/* A header: struct tcmsg, or for actions struct tcamsg. Returns where it ends. */
static int
dissect_tc_header(tvbuff_t *tvb, tc_info *info, struct packet_netlink_data *nl_data, proto_tree *tree, const tc_node *field, int count)
{
	int i, offset = 0;

	for (i = 0; i < count; i++) {
		dissect_tc_node(tvb, info, nl_data, tree, offset, field[i].length, &field[i]);
		offset += field[i].length;
	}
	return offset;
}

static int
dissect_netlink_tc(tvbuff_t *tvb, packet_info *pinfo, proto_tree *tree, void *data)
{
	struct packet_netlink_data *nl_data = (struct packet_netlink_data *)data;
	tc_info info = { pinfo, &list_tc, NULL, NULL, FALSE, 0 };
	proto_tree *tc_tree;
	int offset;

	DISSECTOR_ASSERT(nl_data && nl_data->magic == PACKET_NETLINK_MAGIC);

	tc_tree = proto_item_add_subtree(proto_tree_add_item(tree, proto_netlink_tc, tvb, 0, -1, ENC_NA), ett_tc);
	if (nl_data->type >= WS_RTM_NEWACTION && nl_data->type <= WS_RTM_GETACTION) {
		info.list = &list_action_message;
		offset = dissect_tc_header(tvb, &info, nl_data, tc_tree, header_tcamsg, array_length(header_tcamsg));
	} else {
		offset = dissect_tc_header(tvb, &info, nl_data, tc_tree, header_tcmsg, array_length(header_tcmsg));
		/* Of a filter or a chain tcm_info has the priority and the protocol. */
		if (nl_data->type >= WS_RTM_NEWTFILTER) {
			/* The lower half of tcm_info is in network byte order within the host's. */
			int low = nl_data->encoding == ENC_BIG_ENDIAN ? offset - 2 : offset - 4;
			int high = nl_data->encoding == ENC_BIG_ENDIAN ? offset - 4 : offset - 2;

			proto_tree_add_item(tc_tree, hf_tc_priority, tvb, high, 2, nl_data->encoding);
			proto_tree_add_item(tc_tree, hf_tc_eth_type, tvb, low, 2, ENC_BIG_ENDIAN);
		}
	}
	dissect_netlink_attributes_to_end(tvb, *info.list->hf_type, ett_tc_attr, &info, nl_data, tc_tree, offset, dissect_tc_attrs);
	if (info.kind)
		col_append_fstr(pinfo->cinfo, COL_INFO, "%s ", info.kind);
	return tvb_captured_length(tvb);
}

void
proto_register_netlink_tc(void)
{
	static hf_register_info hf[] = {
		{ &hf_tc_priority,
			{ "Priority", "netlink-tc.priority",
			  FT_UINT16, BASE_DEC, NULL, 0x00,
			  "Of a filter or a chain, in tcm_info", HFILL }
		},
		{ &hf_tc_eth_type,
			{ "Protocol", "netlink-tc.protocol",
			  FT_UINT16, BASE_HEX, VALS(tc_names_eth_p_vals), 0x00,
			  "Of a filter or a chain, in tcm_info", HFILL }
		},
		{ &hf_tc_rest,
			{ "Rest", "netlink-tc.rest",
			  FT_BYTES, BASE_NONE, NULL, 0x00,
			  "Bytes that are in no field", HFILL }
		},
		{ &hf_tc_order,
			{ "Order", "netlink-tc.order",
			  FT_UINT16, BASE_DEC, NULL, NLA_TYPE_MASK,
			  NULL, HFILL }
		},
/* @REGISTRATION@ */
	};

	static ei_register_info ei[] = {
		{ &ei_tc_length,
			{ "netlink-tc.length", PI_MALFORMED, PI_WARN,
			  "Not as many bytes as the form takes", EXPFILL }
		},
		{ &ei_tc_depth,
			{ "netlink-tc.depth", PI_MALFORMED, PI_WARN,
			  "Attributes are nested too deep", EXPFILL }
		},
	};

	static gint *ett[] = {
		&ett_tc,
		&ett_tc_attr,
		&ett_tc_record,
		&ett_tc_bits,
	};

	proto_netlink_tc = proto_register_protocol("Linux traffic control (rtnetlink)", "netlink-tc", "netlink-tc");
	proto_register_field_array(proto_netlink_tc, hf, array_length(hf));
	proto_register_subtree_array(ett, array_length(ett));
	expert_register_field_array(expert_register_protocol(proto_netlink_tc), ei, array_length(ei));

	register_dissector("netlink-tc", dissect_netlink_tc, proto_netlink_tc);
}

/*
 * Editor modelines  -  https://www.wireshark.org/tools/modelines.html
 *
 * Local variables:
 * c-basic-offset: 8
 * tab-width: 8
 * indent-tabs-mode: t
 * End:
 *
 * vi: set shiftwidth=8 tabstop=8 noexpandtab:
 * :indentSize=8:tabSize=8:noTabs=false:
 */
