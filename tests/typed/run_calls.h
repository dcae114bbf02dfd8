/* The methods by their words in scripts, for run.c. Written by abi/typed_c.py: don't change it by hand. */

static kij_result run_control_open(kij_control *control, const run_word *words, run_answer *answer) {
    (void)answer;
    return kij_control_open(control, words[0].text);
}

static kij_result run_control_close(kij_control *control, const run_word *words, run_answer *answer) {
    (void)words;
    (void)answer;
    return kij_control_close(control);
}

static kij_result run_control_claim(kij_control *control, const run_word *words, run_answer *answer) {
    (void)answer;
    return kij_control_claim(control, words[0].number);
}

static kij_result run_control_release(kij_control *control, const run_word *words, run_answer *answer) {
    (void)words;
    (void)answer;
    return kij_control_release(control);
}

static kij_result run_drawer_open(kij_control *control, const run_word *words, run_answer *answer) {
    (void)words;
    (void)answer;
    return kij_drawer_open(control);
}

static kij_result run_scanner_clear_input(kij_control *control, const run_word *words, run_answer *answer) {
    (void)words;
    (void)answer;
    return kij_scanner_clear_input(control);
}

static kij_result run_scanner_clear_input_properties(kij_control *control, const run_word *words, run_answer *answer) {
    (void)words;
    (void)answer;
    return kij_scanner_clear_input_properties(control);
}

static kij_result run_display_text(kij_control *control, const run_word *words, run_answer *answer) {
    (void)answer;
    return kij_display_text(control, words[0].data, words[0].size, words[1].number);
}

static kij_result run_display_text_at(kij_control *control, const run_word *words, run_answer *answer) {
    (void)answer;
    return kij_display_text_at(control, words[0].number, words[1].number, words[2].data, words[2].size,
                               words[3].number);
}

static kij_result run_display_clear_text(kij_control *control, const run_word *words, run_answer *answer) {
    (void)words;
    (void)answer;
    return kij_display_clear_text(control);
}

static kij_result run_display_scroll_text(kij_control *control, const run_word *words, run_answer *answer) {
    (void)answer;
    return kij_display_scroll_text(control, words[0].number, words[1].number);
}

static kij_result run_printer_print(kij_control *control, const run_word *words, run_answer *answer) {
    (void)answer;
    return kij_printer_print(control, words[0].number, words[1].data, words[1].size);
}

static kij_result run_printer_print_immediate(kij_control *control, const run_word *words, run_answer *answer) {
    (void)answer;
    return kij_printer_print_immediate(control, words[0].number, words[1].data, words[1].size);
}

static kij_result run_printer_cut_paper(kij_control *control, const run_word *words, run_answer *answer) {
    (void)answer;
    return kij_printer_cut_paper(control, words[0].number);
}

static kij_result run_printer_clear_output(kij_control *control, const run_word *words, run_answer *answer) {
    (void)words;
    (void)answer;
    return kij_printer_clear_output(control);
}

static kij_result run_totals_create(kij_control *control, const run_word *words, run_answer *answer) {
    return kij_totals_create(control, words[0].data, words[0].size, words[1].number, words[2].number != 0,
                             &answer->number);
}

static kij_result run_totals_delete(kij_control *control, const run_word *words, run_answer *answer) {
    (void)answer;
    return kij_totals_delete(control, words[0].data, words[0].size);
}

static kij_result run_totals_find(kij_control *control, const run_word *words, run_answer *answer) {
    return kij_totals_find(control, words[0].data, words[0].size, &answer->number, &answer->second);
}

static kij_result run_totals_find_by_index(kij_control *control, const run_word *words, run_answer *answer) {
    return kij_totals_find_by_index(control, words[0].number, &answer->data, &answer->size);
}

static kij_result run_totals_read(kij_control *control, const run_word *words, run_answer *answer) {
    return kij_totals_read(control, words[0].number, words[1].number, words[2].number, &answer->data, &answer->size);
}

static kij_result run_totals_write(kij_control *control, const run_word *words, run_answer *answer) {
    (void)answer;
    return kij_totals_write(control, words[0].number, words[1].number, words[2].data, words[2].size);
}

static kij_result run_totals_set_all(kij_control *control, const run_word *words, run_answer *answer) {
    (void)answer;
    return kij_totals_set_all(control, words[0].number, words[1].number);
}

static kij_result run_totals_rename(kij_control *control, const run_word *words, run_answer *answer) {
    (void)answer;
    return kij_totals_rename(control, words[0].number, words[1].data, words[1].size);
}

static kij_result run_totals_claim_file(kij_control *control, const run_word *words, run_answer *answer) {
    (void)answer;
    return kij_totals_claim_file(control, words[0].number, words[1].number);
}

static kij_result run_totals_release_file(kij_control *control, const run_word *words, run_answer *answer) {
    (void)answer;
    return kij_totals_release_file(control, words[0].number);
}

static kij_result run_totals_begin_trans(kij_control *control, const run_word *words, run_answer *answer) {
    (void)words;
    (void)answer;
    return kij_totals_begin_trans(control);
}

static kij_result run_totals_commit_trans(kij_control *control, const run_word *words, run_answer *answer) {
    (void)words;
    (void)answer;
    return kij_totals_commit_trans(control);
}

static kij_result run_totals_rollback(kij_control *control, const run_word *words, run_answer *answer) {
    (void)words;
    (void)answer;
    return kij_totals_rollback(control);
}

/* A line's verb, a method's word, the types of its words, what it returns, and how it is called. */
static const run_method run_methods[] = {
    {"open", "open", "d", '-', run_control_open},
    {"close", "close", "", '-', run_control_close},
    {"claim", "claim", "n", '-', run_control_claim},
    {"release", "release", "", '-', run_control_release},
    {"call", "openDrawer", "", '-', run_drawer_open},
    {"call", "clearInput", "", '-', run_scanner_clear_input},
    {"call", "clearInputProperties", "", '-', run_scanner_clear_input_properties},
    {"call", "displayText", "bn", '-', run_display_text},
    {"call", "displayTextAt", "nnbn", '-', run_display_text_at},
    {"call", "clearText", "", '-', run_display_clear_text},
    {"call", "scrollText", "nn", '-', run_display_scroll_text},
    {"call", "printNormal", "nb", '-', run_printer_print},
    {"call", "printImmediate", "nb", '-', run_printer_print_immediate},
    {"call", "cutPaper", "n", '-', run_printer_cut_paper},
    {"call", "clearOutput", "", '-', run_printer_clear_output},
    {"call", "create", "bnt", 'n', run_totals_create},
    {"call", "delete", "b", '-', run_totals_delete},
    {"call", "find", "b", 'p', run_totals_find},
    {"call", "findByIndex", "n", 'b', run_totals_find_by_index},
    {"call", "read", "nnn", 'b', run_totals_read},
    {"call", "write", "nnb", '-', run_totals_write},
    {"call", "setAll", "nn", '-', run_totals_set_all},
    {"call", "rename", "nb", '-', run_totals_rename},
    {"call", "claimFile", "nn", '-', run_totals_claim_file},
    {"call", "releaseFile", "n", '-', run_totals_release_file},
    {"call", "beginTrans", "", '-', run_totals_begin_trans},
    {"call", "commitTrans", "", '-', run_totals_commit_trans},
    {"call", "rollback", "", '-', run_totals_rollback},
};

/* The properties by their names, and their types. */
static const run_property run_properties[] = {
    {"State", 'n', KIJ_PROP_STATE},
    {"Claimed", 't', KIJ_PROP_CLAIMED},
    {"DeviceEnabled", 't', KIJ_PROP_DEVICE_ENABLED},
    {"FreezeEvents", 't', KIJ_PROP_FREEZE_EVENTS},
    {"CapPowerReporting", 'n', KIJ_PROP_CAP_POWER_REPORTING},
    {"PowerNotify", 'n', KIJ_PROP_POWER_NOTIFY},
    {"PowerState", 'n', KIJ_PROP_POWER_STATE},
    {"CapStatus", 't', KIJ_PROP_CAP_STATUS},
    {"DrawerOpened", 't', KIJ_PROP_DRAWER_OPENED},
    {"DataEventEnabled", 't', KIJ_PROP_DATA_EVENT_ENABLED},
    {"AutoDisable", 't', KIJ_PROP_AUTO_DISABLE},
    {"DataCount", 'n', KIJ_PROP_DATA_COUNT},
    {"DecodeData", 't', KIJ_PROP_DECODE_DATA},
    {"ScanData", 'b', KIJ_PROP_SCAN_DATA},
    {"ScanDataLabel", 'b', KIJ_PROP_SCAN_DATA_LABEL},
    {"ScanDataType", 'n', KIJ_PROP_SCAN_DATA_TYPE},
    {"Rows", 'n', KIJ_PROP_ROWS},
    {"Columns", 'n', KIJ_PROP_COLUMNS},
    {"CursorRow", 'n', KIJ_PROP_CURSOR_ROW},
    {"CursorColumn", 'n', KIJ_PROP_CURSOR_COLUMN},
    {"CursorUpdate", 't', KIJ_PROP_CURSOR_UPDATE},
    {"AsyncMode", 't', KIJ_PROP_ASYNC_MODE},
    {"OutputID", 'n', KIJ_PROP_OUTPUT_ID},
    {"RecLineChars", 'n', KIJ_PROP_REC_LINE_CHARS},
    {"CoverOpen", 't', KIJ_PROP_COVER_OPEN},
    {"RecEmpty", 't', KIJ_PROP_REC_EMPTY},
    {"RecNearEnd", 't', KIJ_PROP_REC_NEAR_END},
    {"TotalsSize", 'n', KIJ_PROP_TOTALS_SIZE},
    {"FreeData", 'n', KIJ_PROP_FREE_DATA},
    {"NumberOfFiles", 'n', KIJ_PROP_NUMBER_OF_FILES},
    {"TransactionInProgress", 't', KIJ_PROP_TRANSACTION_IN_PROGRESS},
    {"CapTransactions", 't', KIJ_PROP_CAP_TRANSACTIONS},
    {"CapSingleFile", 't', KIJ_PROP_CAP_SINGLE_FILE},
    {"CapErrorDetection", 't', KIJ_PROP_CAP_ERROR_DETECTION},
};
