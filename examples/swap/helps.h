/* What each command says of itself. */
#ifndef HELPS_H
#define HELPS_H

extern const char swap_help[];
extern const char check_help[];
extern const char list_help[];
extern const char report_help[];
extern const char page_help[];
extern const char outage_help[];
extern const char slack_help[];
extern const char timelocks_help[];
extern const char desk_help[];
extern const char blocks_help[];
extern const char earliest_help[];
extern const char ask_help[];
extern const char commit_help[];
extern const char shrink_help[];

#endif
