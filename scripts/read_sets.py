"""Reads parameter sets of H.266 bit by bit, in the order of the syntax tables of clause 7.3.

`Sps(rbsp)` and `Pps(rbsp)` have the items, each with the number of its field, and what they mean for pictures. The sets have to be
well-formed, of one layer, and without an extension.
"""
import pathlib
import re

FIELDS = pathlib.Path(__file__).resolve().parent.parent / "docs" / "generated" / "FIELDS.md"
NUMBERS = {name: int(number) for number, name in re.findall(r"^\| (\d+) \| `(\w+)`", FIELDS.read_text(), re.M)}


def above(total, size):
    """Returns how many parts of a size are needed for a total, rounded up."""
    return -(-total // size)


def bits_below(count):
    """Returns how many bits a number below `count` takes."""
    return (count - 1).bit_length()


class Reader:
    """Bits that are read, and the items that they give."""

    def __init__(self, rbsp):
        self.begin(rbsp)

    def begin(self, rbsp):
        self.bits, self.at, self.items = "".join(f"{byte:08b}" for byte in rbsp), 0, []

    def take(self, n):
        self.at += n
        assert self.at <= len(self.bits)
        return int(self.bits[self.at - n:self.at] or "0", 2)

    def item(self, name, value):
        self.items.append((NUMBERS[name], value))
        return value

    def u(self, n, name):
        return self.item(name, self.take(n))

    def flag(self, name):
        return self.u(1, name)

    def golomb(self):
        zeros = 0
        while not self.take(1):
            zeros += 1
        return (1 << zeros) - 1 + self.take(zeros)

    def ue(self, name):
        return self.item(name, self.golomb())

    def se(self, name):
        code = self.golomb()
        return self.item(name, (code + 1) // 2 if code % 2 else -(code // 2))

    def zeros(self):
        assert self.take(-self.at % 8) == 0

    def end(self, extension):
        """Reads the flag of an extension, which has to be 0, and the trailing bits."""
        assert self.flag(extension) == 0
        assert self.bits[self.at:] == "1" + "0" * (len(self.bits) - self.at - 1) and len(self.bits) - self.at <= 8

    def text(self):
        return "".join(f" {field}={value}" for field, value in self.items)


def rects_text(rects):
    return ";".join(",".join(map(str, rect)) for rect in rects)


def numbers_text(numbers):
    return ",".join(map(str, numbers))


class Sps(Reader):
    """A sequence parameter set."""

    def __init__(self, rbsp):
        super().__init__(rbsp)
        self.u(4, "sps_seq_parameter_set_id")
        self.u(4, "sps_video_parameter_set_id")
        self.sublayers = self.u(3, "sps_max_sublayers_minus1")
        self.chroma = self.u(2, "sps_chroma_format_idc")
        self.log2_ctu = self.u(2, "sps_log2_ctu_size_minus5")
        self.ctu = 32 << self.log2_ctu
        self.flag("sps_ptl_dpb_hrd_params_present_flag")
        self.read_profile()
        self.flag("sps_gdr_enabled_flag")
        if self.flag("sps_ref_pic_resampling_enabled_flag"):
            self.flag("sps_res_change_in_clvs_allowed_flag")
        self.width = self.ue("sps_pic_width_max_in_luma_samples")
        self.height = self.ue("sps_pic_height_max_in_luma_samples")
        if self.flag("sps_conformance_window_flag"):
            for side in ("left", "right", "top", "bottom"):
                self.ue(f"sps_conf_win_{side}_offset")
        self.read_subpictures()
        self.read_counts()
        self.read_partitions()
        self.read_transforms()
        self.read_references()
        self.read_inter()
        self.read_intra()
        self.read_end()

    def read_profile(self):
        """Reads profile_tier_level()."""
        self.u(7, "general_profile_idc")
        self.flag("general_tier_flag")
        self.u(8, "general_level_idc")
        self.flag("ptl_frame_only_constraint_flag")
        self.flag("ptl_multilayer_enabled_flag")
        if self.flag("gci_present_flag"):
            for _ in range(71):
                self.flag("gci_constraint_bit")
            for _ in range(self.u(8, "gci_num_additional_bits")):
                self.flag("gci_reserved_bit")
        self.zeros()
        levels = sum(self.flag("ptl_sublayer_level_present_flag") for _ in range(self.sublayers))
        self.zeros()
        for _ in range(levels):
            self.u(8, "sublayer_level_idc")
        for _ in range(self.u(8, "ptl_num_sub_profiles")):
            self.u(32, "general_sub_profile_idc")

    def read_subpictures(self):
        """Reads from sps_subpic_info_present_flag to the ids."""
        columns, rows = above(self.width, self.ctu), above(self.height, self.ctu)
        self.rects, self.treated, self.filtered, self.ids = [(0, 0, columns, rows)], [1], [0], [0]
        if not self.flag("sps_subpic_info_present_flag"):
            return
        count = self.ue("sps_num_subpics_minus1") + 1
        self.ids = list(range(count))
        if count > 1:
            self.read_rects(count, columns, rows)
        bits = self.ue("sps_subpic_id_len_minus1") + 1
        if self.flag("sps_subpic_id_mapping_explicitly_signalled_flag") and self.flag("sps_subpic_id_mapping_present_flag"):
            self.ids = [self.u(bits, "sps_subpic_id") for _ in range(count)]

    def read_rects(self, count, columns, rows):
        """Reads the places of several subpictures, and how they are coded."""
        independent = self.flag("sps_independent_subpics_flag")
        same = self.flag("sps_subpic_same_size_flag")
        x_bits, y_bits, self.rects, self.treated, self.filtered = bits_below(columns), bits_below(rows), [], [], []
        for k in range(count):
            if k and same:
                _, _, w, h = self.rects[0]
                across = columns // w
                x, y = k % across * w, k // across * h
            else:
                x = self.u(x_bits, "sps_subpic_ctu_top_left_x") if k and columns > 1 else 0
                y = self.u(y_bits, "sps_subpic_ctu_top_left_y") if k and rows > 1 else 0
                told = k < count - 1
                w = self.u(x_bits, "sps_subpic_width_minus1") + 1 if told and columns > 1 else columns - x
                h = self.u(y_bits, "sps_subpic_height_minus1") + 1 if told and rows > 1 else rows - y
            self.rects.append((x, y, w, h))
            self.treated.append(1 if independent else self.flag("sps_subpic_treated_as_pic_flag"))
            self.filtered.append(0 if independent else self.flag("sps_loop_filter_across_subpic_enabled_flag"))

    def read_counts(self):
        """Reads from the bit depth to the DPB parameters."""
        self.ue("sps_bitdepth_minus8")
        self.flag("sps_entropy_coding_sync_enabled_flag")
        self.flag("sps_entry_point_offsets_present_flag")
        self.lsb_bits = self.u(4, "sps_log2_max_pic_order_cnt_lsb_minus4") + 4
        if self.flag("sps_poc_msb_cycle_flag"):
            self.ue("sps_poc_msb_cycle_len_minus1")
        self.extra = [sum(self.flag(f"sps_extra_{header}_bit_present_flag") for _ in range(8 * self.u(2, f"sps_num_extra_{header}_bytes")))
                      for header in ("ph", "sh")]
        each = self.flag("sps_sublayer_dpb_params_flag") if self.sublayers else 0
        for _ in range(self.sublayers + 1 if each else 1):
            self.ue("dpb_max_dec_pic_buffering_minus1")
            self.ue("dpb_max_num_reorder_pics")
            self.ue("dpb_max_latency_increase_plus1")

    def read_tree(self, slices):
        """Reads how CTUs are split in slices of a kind."""
        self.ue(f"sps_log2_diff_min_qt_min_cb_{slices}")
        if self.ue(f"sps_max_mtt_hierarchy_depth_{slices}"):
            self.ue(f"sps_log2_diff_max_bt_min_qt_{slices}")
            self.ue(f"sps_log2_diff_max_tt_min_qt_{slices}")

    def read_partitions(self):
        """Reads the limits of partitions."""
        self.ue("sps_log2_min_luma_coding_block_size_minus2")
        self.flag("sps_partition_constraints_override_enabled_flag")
        self.read_tree("intra_slice_luma")
        if self.chroma and self.flag("sps_qtbtt_dual_tree_intra_flag"):
            self.read_tree("intra_slice_chroma")
        self.read_tree("inter_slice")

    def read_transforms(self):
        """Reads from the size of transforms to the LMCS."""
        if self.log2_ctu:
            self.flag("sps_max_luma_transform_size_64_flag")
        self.transform_skip = self.flag("sps_transform_skip_enabled_flag")
        if self.transform_skip:
            self.ue("sps_log2_transform_skip_max_size_minus2")
            self.flag("sps_bdpcm_enabled_flag")
        if self.flag("sps_mts_enabled_flag"):
            self.flag("sps_explicit_mts_intra_enabled_flag")
            self.flag("sps_explicit_mts_inter_enabled_flag")
        self.lfnst = self.flag("sps_lfnst_enabled_flag")
        if self.chroma:
            joint = self.flag("sps_joint_cbcr_enabled_flag")
            for _ in range(1 if self.flag("sps_same_qp_table_for_chroma_flag") else 2 + joint):
                self.se("sps_qp_table_start_minus26")
                for _ in range(self.ue("sps_num_points_in_qp_table_minus1") + 1):
                    self.ue("sps_delta_qp_in_val_minus1")
                    self.ue("sps_delta_qp_diff_val")
        self.flag("sps_sao_enabled_flag")
        if self.flag("sps_alf_enabled_flag") and self.chroma:
            self.flag("sps_ccalf_enabled_flag")
        self.flag("sps_lmcs_enabled_flag")

    def read_references(self):
        """Reads the weights, and the reference picture lists."""
        self.weighted = self.flag("sps_weighted_pred_flag") | self.flag("sps_weighted_bipred_flag")
        self.long_term = self.flag("sps_long_term_ref_pics_flag")
        self.flag("sps_idr_rpl_present_flag")
        same = self.flag("sps_rpl1_same_as_rpl0_flag")
        self.lists = [[self.read_structure() for _ in range(self.ue("sps_num_ref_pic_lists"))] for _ in range(1 if same else 2)]
        self.lists *= 3 - len(self.lists)

    def read_structure(self):
        """Reads ref_pic_list_struct(): where the low bits of its long-term entries are, and the entries."""
        count = self.ue("num_ref_entries")
        in_header = self.flag("ltrp_in_header_flag") if self.long_term and count else 0
        entries = []
        for i in range(count):
            if not self.long_term or self.flag("st_ref_pic_flag"):
                delta = self.ue("abs_delta_poc_st") + (0 if self.weighted and i else 1)
                entries.append(f"s-{delta}" if delta and self.flag("strp_entry_sign_flag") else f"s+{delta}")
            else:
                entries.append("lNone" if in_header else f"l{self.u(self.lsb_bits, 'rpls_poc_lsb_lt')}")
        return "h" if in_header else "o", entries

    def read_inter(self):
        """Reads from reference wraparound to the parallel merge level."""
        self.flag("sps_ref_wraparound_enabled_flag")
        if self.flag("sps_temporal_mvp_enabled_flag"):
            self.flag("sps_sbtmvp_enabled_flag")
        amvr = self.flag("sps_amvr_enabled_flag")
        if self.flag("sps_bdof_enabled_flag"):
            self.flag("sps_bdof_control_present_in_ph_flag")
        self.flag("sps_smvd_enabled_flag")
        if self.flag("sps_dmvr_enabled_flag"):
            self.flag("sps_dmvr_control_present_in_ph_flag")
        if self.flag("sps_mmvd_enabled_flag"):
            self.flag("sps_mmvd_fullpel_only_enabled_flag")
        fewer = self.ue("sps_six_minus_max_num_merge_cand")
        self.flag("sps_sbt_enabled_flag")
        if self.flag("sps_affine_enabled_flag"):
            self.ue("sps_five_minus_max_num_subblock_merge_cand")
            self.flag("sps_6param_affine_enabled_flag")
            if amvr:
                self.flag("sps_affine_amvr_enabled_flag")
            if self.flag("sps_affine_prof_enabled_flag"):
                self.flag("sps_prof_control_present_in_ph_flag")
        self.flag("sps_bcw_enabled_flag")
        self.flag("sps_ciip_enabled_flag")
        if fewer <= 4 and self.flag("sps_gpm_enabled_flag") and fewer <= 3:
            self.ue("sps_max_num_merge_cand_minus_max_num_gpm_cand")
        self.ue("sps_log2_parallel_merge_level_minus2")

    def read_intra(self):
        """Reads from intra tools to virtual boundaries."""
        for tool in ("isp", "mrl", "mip"):
            self.flag(f"sps_{tool}_enabled_flag")
        if self.chroma:
            self.flag("sps_cclm_enabled_flag")
            self.flag("sps_chroma_horizontal_collocated_flag")
            self.flag("sps_chroma_vertical_collocated_flag")
        self.flag("sps_palette_enabled_flag")
        if self.transform_skip:
            self.ue("sps_min_qp_prime_ts")
        if self.flag("sps_ibc_enabled_flag"):
            self.ue("sps_six_minus_max_num_ibc_merge_cand")
        if self.flag("sps_ladf_enabled_flag"):
            intervals = self.u(2, "sps_num_ladf_intervals_minus2") + 1
            self.se("sps_ladf_lowest_interval_qp_offset")
            for _ in range(intervals):
                self.se("sps_ladf_qp_offset")
                self.ue("sps_ladf_delta_threshold_minus1")
        if self.flag("sps_explicit_scaling_list_enabled_flag") and self.lfnst:
            self.flag("sps_scaling_matrix_for_lfnst_disabled_flag")
        self.flag("sps_dep_quant_enabled_flag")
        self.flag("sps_sign_data_hiding_enabled_flag")
        self.flag("sps_virtual_boundaries_enabled_flag")

    def read_end(self):
        """Reads the timing, the usability information, and the end."""
        if self.flag("sps_timing_hrd_params_present_flag"):
            self.read_timing()
        self.flag("sps_field_seq_flag")
        if self.flag("sps_vui_parameters_present_flag"):
            size = self.ue("sps_vui_payload_size_minus1") + 1
            self.zeros()
            for _ in range(size):
                self.u(8, "vui_payload_byte")
        self.end("sps_extension_flag")

    def read_timing(self):
        """Reads general_timing_hrd_parameters() and ols_timing_hrd_parameters()."""
        self.u(32, "num_units_in_tick")
        self.u(32, "time_scale")
        kinds = self.flag("general_nal_hrd_params_present_flag") + self.flag("general_vcl_hrd_params_present_flag")
        units = cpbs = 0
        if kinds:
            self.flag("general_same_pic_timing_in_all_ols_flag")
            units = self.flag("general_du_hrd_params_present_flag")
            if units:
                self.u(8, "tick_divisor_minus2")
            self.u(4, "bit_rate_scale")
            self.u(4, "cpb_size_scale")
            if units:
                self.u(4, "cpb_size_du_scale")
            cpbs = self.ue("hrd_cpb_cnt_minus1") + 1
        each = self.flag("sps_sublayer_cpb_params_present_flag") if self.sublayers else 0
        for _ in range(self.sublayers + 1 if each else 1):
            self.read_sublayer(kinds, cpbs, units)

    def read_sublayer(self, kinds, cpbs, units):
        """Reads the timing of a sublayer."""
        if self.flag("fixed_pic_rate_general_flag") or self.flag("fixed_pic_rate_within_cvs_flag"):
            self.ue("elemental_duration_in_tc_minus1")
        elif kinds and cpbs == 1:
            self.flag("low_delay_hrd_flag")
        for _ in range(kinds * cpbs):
            self.ue("bit_rate_value_minus1")
            self.ue("cpb_size_value_minus1")
            if units:
                self.ue("cpb_size_du_value_minus1")
                self.ue("bit_rate_du_value_minus1")
            self.flag("cbr_flag")

    def picture(self):
        """Returns its pictures, and their subpictures, as text."""
        return (f"width={self.width} height={self.height} ctb={self.ctu} subpics={len(self.rects)} rects={rects_text(self.rects)}"
                f" treated={numbers_text(self.treated)} filtered={numbers_text(self.filtered)}")

    def meaning(self):
        """Returns what it means, as text."""
        lists = [";".join(place + ",".join(entries) for place, entries in structures) or "-" for structures in self.lists]
        return f"{self.picture()} lists={'|'.join(lists)}"

    def numbers(self):
        """Returns the numbers of a large set, as text."""
        first, second = self.lists
        return (f"items={len(self.items)} lists={len(first)},{len(second)} extra={numbers_text(self.extra)} | {self.picture()}"
                f" ids={numbers_text(self.ids)}")


class Pps(Reader):
    """A picture parameter set."""

    def __init__(self, rbsp):
        super().__init__(rbsp)
        self.u(6, "pps_pic_parameter_set_id")
        self.u(4, "pps_seq_parameter_set_id")
        self.flag("pps_mixed_nalu_types_in_pic_flag")
        self.width = self.ue("pps_pic_width_in_luma_samples")
        self.height = self.ue("pps_pic_height_in_luma_samples")
        if self.flag("pps_conformance_window_flag"):
            for side in ("left", "right", "top", "bottom"):
                self.ue(f"pps_conf_win_{side}_offset")
        self.flag("pps_scaling_window_explicit_signalling_flag")
        self.flag("pps_output_flag_present_flag")
        self.partitioned = not self.flag("pps_no_pic_partition_flag")
        if self.flag("pps_subpic_id_mapping_present_flag"):
            count = self.ue("pps_num_subpics_minus1") + 1 if self.partitioned else 1
            bits = self.ue("pps_subpic_id_len_minus1") + 1
            for _ in range(count):
                self.u(bits, "pps_subpic_id")
        if self.partitioned:
            self.read_partition()
        self.read_prediction()
        self.read_filters()
        self.end("pps_extension_flag")

    def read_sizes(self, count, total, name):
        """Reads `count` explicit tile sizes, and returns the bounds of the tiles."""
        sizes = [self.ue(name) + 1 for _ in range(count)]
        left = total - sum(sizes)
        sizes += [sizes[-1]] * (left // sizes[-1]) + [left % sizes[-1]] * (left % sizes[-1] > 0)
        return [sum(sizes[:k]) for k in range(len(sizes) + 1)]

    def read_partition(self):
        """Reads tiles and slices."""
        self.ctu = 32 << self.u(2, "pps_log2_ctu_size_minus5")
        columns, rows = self.ue("pps_num_exp_tile_columns_minus1") + 1, self.ue("pps_num_exp_tile_rows_minus1") + 1
        self.columns = self.read_sizes(columns, above(self.width, self.ctu), "pps_tile_column_width_minus1")
        self.rows = self.read_sizes(rows, above(self.height, self.ctu), "pps_tile_row_height_minus1")
        if (len(self.columns) - 1) * (len(self.rows) - 1) > 1:
            self.flag("pps_loop_filter_across_tiles_enabled_flag")
            assert self.flag("pps_rect_slice_flag")
        self.slices = None
        if single := self.flag("pps_single_slice_per_subpic_flag"):
            count = 1
        else:
            count = self.ue("pps_num_slices_in_pic_minus1") + 1
            self.read_slices(count, self.flag("pps_tile_idx_delta_present_flag") if count > 2 else 0)
        if single or count > 1:
            self.flag("pps_loop_filter_across_slices_enabled_flag")

    def read_slices(self, count, deltas):
        """Reads the slice list (6.5.1), which has all slices except the last one."""
        across, down, tile, high, self.slices = len(self.columns) - 1, len(self.rows) - 1, 0, 1, []
        while len(self.slices) < count:
            column, row, last, wide = tile % across, tile // across, len(self.slices) == count - 1, 1
            if not last and column < across - 1:
                wide = self.ue("pps_slice_width_in_tiles_minus1") + 1
            elif last:
                wide = across - column
            if last:
                high = down - row
            elif row == down - 1:
                high = 1
            elif deltas or column == 0:
                high = self.ue("pps_slice_height_in_tiles_minus1") + 1
            x, y = self.columns[column], self.rows[row]
            whole = (x, y, self.columns[column + wide] - x, self.rows[row + high] - y)
            heights = [whole[3]]
            if not last and wide == high == 1 and whole[3] > 1:
                heights = self.read_heights(whole[3])
            for height in heights:
                self.slices.append((x, y, whole[2], height))
                y += height
            if deltas and len(self.slices) < count:
                tile += self.se("pps_tile_idx_delta_val")
            else:
                tile += wide
                if tile % across == 0:
                    tile += (high - 1) * across

    def read_heights(self, rows):
        """Reads the heights of the slices of a tile of `rows` rows of CTUs. The last explicit height applies to the slices after it."""
        told = self.ue("pps_num_exp_slices_in_tile")
        heights = [self.ue("pps_exp_slice_height_in_ctus_minus1") + 1 for _ in range(told)]
        left = rows - sum(heights)
        size = heights[-1] if told else left
        return heights + [size] * (left // size if size else 0) + [left % size] * (bool(size) and left % size > 0)

    def read_prediction(self):
        """Reads from CABAC to the offsets of the chroma QP."""
        self.flag("pps_cabac_init_present_flag")
        for _ in range(2):
            self.ue("pps_num_ref_idx_default_active_minus1")
        self.flag("pps_rpl1_idx_present_flag")
        self.weighted = self.flag("pps_weighted_pred_flag") | self.flag("pps_weighted_bipred_flag")
        self.flag("pps_ref_wraparound_enabled_flag")
        self.se("pps_init_qp_minus26")
        self.flag("pps_cu_qp_delta_enabled_flag")
        self.chroma_tools = self.flag("pps_chroma_tool_offsets_present_flag")
        if not self.chroma_tools:
            return
        self.se("pps_cb_qp_offset")
        self.se("pps_cr_qp_offset")
        joint = self.flag("pps_joint_cbcr_qp_offset_present_flag")
        if joint:
            self.se("pps_joint_cbcr_qp_offset_value")
        self.flag("pps_slice_chroma_qp_offsets_present_flag")
        if self.flag("pps_cu_chroma_qp_offset_list_enabled_flag"):
            for _ in range(self.ue("pps_chroma_qp_offset_list_len_minus1") + 1):
                self.se("pps_cb_qp_offset_list")
                self.se("pps_cr_qp_offset_list")
                if joint:
                    self.se("pps_joint_cbcr_qp_offset_list")

    def read_filters(self):
        """Reads the deblocking filter, and flags for what is in picture headers."""
        if self.flag("pps_deblocking_filter_control_present_flag"):
            override = self.flag("pps_deblocking_filter_override_enabled_flag")
            disabled = self.flag("pps_deblocking_filter_disabled_flag")
            if self.partitioned and override:
                self.flag("pps_dbf_info_in_ph_flag")
            for component in () if disabled else ("luma", "cb", "cr") if self.chroma_tools else ("luma",):
                self.se(f"pps_{component}_beta_offset_div2")
                self.se(f"pps_{component}_tc_offset_div2")
        if self.partitioned:
            lists = self.flag("pps_rpl_info_in_ph_flag")
            self.flag("pps_sao_info_in_ph_flag")
            self.flag("pps_alf_info_in_ph_flag")
            if self.weighted and lists:
                self.flag("pps_wp_info_in_ph_flag")
            self.flag("pps_qp_delta_info_in_ph_flag")
        self.flag("pps_picture_header_extension_present_flag")
        self.flag("pps_slice_header_extension_present_flag")

    def meaning(self):
        """Returns what it means, as text."""
        if not self.partitioned:
            return "unpartitioned"
        slices = "none" if self.slices is None else rects_text(self.slices)
        return f"columns={numbers_text(self.columns)} rows={numbers_text(self.rows)} slices={slices}"
