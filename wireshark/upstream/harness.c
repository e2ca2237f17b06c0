/* Runs the dissector of the patches over frames, within the installed libwireshark: harness FRAMES [show]
 *
 * FRAMES has for each frame its length, four bytes in the host's order, and then the frame of LINKTYPE_NETLINK. With `show` the fields of the dissector are
 * printed, a line for each: the frame's number, the name, and the value. libwireshark exports no function of packet-netlink.c, so either that file of the
 * patched sources is compiled in, under names of its own (-DWITH_SOURCE, `check --source`), or what stands here for it. */
#include "config.h"

#include <stdio.h>
#include <stdlib.h>
#include <string.h>

#include <epan/epan.h>
#include <epan/epan_dissect.h>
#include <epan/frame_data.h>
#include <epan/packet.h>
#include <epan/proto.h>
#include <wiretap/wtap.h>
#include <wsutil/privileges.h>
#include <wsutil/ws_roundup.h>
#include "packet-netlink.h"

void proto_register_netlink_tc(void);

#ifdef WITH_SOURCE
/* Names of numbers that libwireshark keeps to itself, and that aren't of traffic control. */
static const value_string no_names[] = { { 0, NULL } };
value_string_ext linux_negative_errno_vals_ext = VALUE_STRING_EXT_INIT(no_names);
value_string_ext linux_af_vals_ext = VALUE_STRING_EXT_INIT(no_names);
extern const value_string arp_hrd_vals[];
const value_string arp_hrd_vals[] = { { 0, NULL } };

void proto_register_netlink(void);
void proto_reg_handoff_netlink(void);
void proto_register_netlink_route(void);
void proto_reg_handoff_netlink_route(void);

static void register_all(register_cb cb, gpointer data)
{
	(void)cb, (void)data;
	proto_register_netlink();
	proto_register_netlink_route();
	proto_register_netlink_tc();
}

static void handoff_all(register_cb cb, gpointer data)
{
	(void)cb, (void)data;
	proto_reg_handoff_netlink();
	proto_reg_handoff_netlink_route();
}
#else
static int proto_stand_in = -1;
static int hf_length = -1;
static int ett_stand_in = -1;

/* Attributes, each with a tree of its own. The callback gets the type with its flags. */
int dissect_netlink_attributes(tvbuff_t *tvb, int hf_type, int ett, void *data, struct packet_netlink_data *nl_data, proto_tree *tree, int offset, int length, netlink_attributes_cb_t cb)
{
	int end = offset + length;

	for (offset = WS_ROUNDUP_4(offset); end - offset >= 4;) {
		int size = tvb_get_guint16(tvb, offset, nl_data->encoding), type = tvb_get_guint16(tvb, offset + 2, nl_data->encoding);
		proto_tree *below;

		if (size < 4)
			break;
		if (size > end - offset)
			size = end - offset;
		below = proto_tree_add_subtree(tree, tvb, offset, size, ett, NULL, "Attribute");
		proto_tree_add_uint(below, hf_type, tvb, offset + 2, 2, type & NLA_TYPE_MASK);
		if (!cb(tvb, data, nl_data, below, type, offset + 4, size - 4))
			proto_tree_add_item(below, hf_length, tvb, offset, size, ENC_NA);
		offset += WS_ROUNDUP_4(size);
	}
	return end;
}

int dissect_netlink_attributes_to_end(tvbuff_t *tvb, int hf_type, int ett, void *data, struct packet_netlink_data *nl_data, proto_tree *tree, int offset, netlink_attributes_cb_t cb)
{
	return dissect_netlink_attributes(tvb, hf_type, ett, data, nl_data, tree, offset, tvb_ensure_reported_length_remaining(tvb, offset), cb);
}

/* The netlink header; libwireshark's own dissector of netlink calls this. */
static int dissect_stand_in(tvbuff_t *tvb, packet_info *pinfo, proto_tree *tree, void *data)
{
	proto_tree *below = proto_item_add_subtree(proto_tree_add_item(tree, proto_stand_in, tvb, 0, -1, ENC_NA), ett_stand_in);

	if (tvb_reported_length(tvb) <= 16)
		return tvb_captured_length(tvb);
	return 16 + call_dissector_with_data(find_dissector("netlink-tc"), tvb_new_subset_remaining(tvb, 16), pinfo, below, data);
}

static void register_all(register_cb cb, gpointer data)
{
	static hf_register_info hf[] = { { &hf_length, { "Attribute", "stand-in.attribute", FT_BYTES, BASE_NONE, NULL, 0, NULL, HFILL } } };
	static int *ett[] = { &ett_stand_in };

	(void)cb, (void)data;
	proto_stand_in = proto_register_protocol("What stands for packet-netlink-route.c", "stand-in", "stand-in");
	proto_register_field_array(proto_stand_in, hf, array_length(hf));
	proto_register_subtree_array(ett, array_length(ett));
	proto_register_netlink_tc();
}

static void handoff_all(register_cb cb, gpointer data)
{
	(void)cb, (void)data;
	dissector_change_uint("netlink.protocol", WS_NETLINK_ROUTE, create_dissector_handle(dissect_stand_in, proto_stand_in));
}
#endif

static long fields, malformed;

/* Counts the fields, and prints those of the dissector. */
static void each(proto_node *node, gpointer data)
{
	field_info *info = node->finfo;
	const guint32 *number = (const guint32 *)data;

	if (info && info->hfinfo && strcmp(info->hfinfo->abbrev, "_ws.malformed") == 0)
		malformed++;
	if (info && info->hfinfo && strncmp(info->hfinfo->abbrev, "netlink-tc", 10) == 0) {
		fields++;
		if (number[1]) {
			char *value = info->hfinfo->type == FT_PROTOCOL || info->hfinfo->type == FT_NONE ? NULL
				: fvalue_to_string_repr(NULL, &info->value, FTREPR_DISPLAY, info->hfinfo->display & FIELD_DISPLAY_E_MASK);

			char *line = g_strescape(value ? value : "", NULL);

			printf("%u %s %s\n", number[0], info->hfinfo->abbrev, line);
			g_free(line);
			wmem_free(NULL, value);
		}
	}
	proto_tree_children_foreach(node, each, data);
}

static void nothing(void)
{
}

static void nothing_of(epan_dissect_t *run)
{
	(void)run;
}

static const nstime_t *no_time(struct packet_provider_data *provider, guint32 number)
{
	static const nstime_t zero;

	(void)provider, (void)number;
	return &zero;
}

int main(int argc, char **argv)
{
	static const epan_plugin plugin = { nothing, nothing, nothing_of, nothing_of, nothing, register_all, handoff_all, nothing };
	static const struct packet_provider_funcs functions = { no_time, NULL, NULL, NULL };
	FILE *file = argc > 1 ? fopen(argv[1], "rb") : NULL;
	guint32 length, number[2] = { 0, argc > 2 };
	epan_t *session;

	if (!file) {
		fprintf(stderr, "harness FRAMES [show]\n");
		return 2;
	}
	init_process_policies();
	wtap_init(FALSE);
	epan_register_plugin(&plugin);
	if (!epan_init(NULL, NULL, FALSE))
		return 2;
	session = epan_new(NULL, &functions);
	while (fread(&length, 4, 1, file) == 1) {
		/* Of its own size, so that a read beyond it is seen. */
		guint8 *bytes = (guint8 *)malloc(length ? length : 1);
		epan_dissect_t *run = epan_dissect_new(session, TRUE, TRUE);
		frame_data frame;
		wtap_rec rec;

		if (fread(bytes, 1, length, file) != length)
			return 2;
		memset(&rec, 0, sizeof rec);
		rec.rec_type = REC_TYPE_PACKET;
		rec.rec_header.packet_header.caplen = rec.rec_header.packet_header.len = length;
		rec.rec_header.packet_header.pkt_encap = WTAP_ENCAP_NETLINK;
		frame_data_init(&frame, ++number[0], &rec, 0, 0);
		epan_dissect_run(run, WTAP_FILE_TYPE_SUBTYPE_UNKNOWN, &rec, tvb_new_real_data(bytes, length, length), &frame, NULL);
		proto_tree_children_foreach(run->tree, each, number);
		epan_dissect_free(run);
		frame_data_destroy(&frame);
		free(bytes);
	}
	fprintf(stderr, "%u frames, %ld fields, %ld malformed\n", number[0], fields, malformed);
	return 0;
}
