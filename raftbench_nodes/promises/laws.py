"""Which promise watches which law of rb_calls and rb_laws, or why none does. docs/NODE.md shows the same table."""
from __future__ import annotations

from typing import NamedTuple


class Watched(NamedTuple):
    """Some laws, and the promises that nodes break if one of these laws is false of them; or why no promise can see that."""

    laws: tuple[str, ...]
    promises: tuple[str, ...] = ()
    why_none: str = ""

    def row(self) -> str:
        """A row of the table."""
        return f"| {', '.join(self.promises) or f'none: {self.why_none}'} | {', '.join(f'`{law}`' for law in self.laws)} |"


def watched(laws: str, *promises: str, none: str = "") -> Watched:
    return Watched(tuple(laws.split()), promises, none)


# A law also stands for the same one of scripts, and for the same one with restarts: `form_of`.
WATCHED = (
    watched("elections_are_safe", "one leader per term"),
    watched("votes_are_given_once votes_are_cast_once promises_are_kept", "one vote per term", "a granted vote is kept"),
    watched("votes_go_to_new_logs", "votes go to new logs"),
    watched("leaders_are_elected leaders_are_chosen leaders_were_candidates", "a leader has a quorum of votes"),
    watched("terms_never_fall commit_never_falls", "terms and commits don't fall"),
    watched("earlier_terms_change_nothing", "earlier terms change nothing"),
    watched("leaders_append_only", "a leader only appends"),
    watched("logs_match", "logs match"),
    watched("leaders_have_what_is_committed", "a leader has all committed entries"),
    watched("committed_entries_agree committed_entries_stay clusters_print_the_same_entries", "no two nodes commit different entries"),
    watched("applied_entries_agree contents_agree committed_entries_take_effect snapshots_are_restored_whole", "no two nodes apply different entries"),
    watched("leaders_commit_own_terms leaders_commit_what_a_quorum_holds", "a quorum holds what a leader commits"),
    watched("followers_commit_what_leaders_tell", "followers commit what they are told"),
    watched("answers_tell_what_is_held messages_are_true", "acknowledged entries are held"),
    watched("members_are_active_by_their_answers", "active members were heard"),
    watched("ready_is_the_state", "what is saved is the state", "unsaved state sets sync"),
    watched("ready_is_exact messages_go_out_once", "comes to rest"),
    watched(
        "lone_candidates_are_elected elections_are_won silence_ends_in_a_campaign leaders_send_heartbeats proposals_are_appended "
        "members_are_sent_what_they_lack refusals_lead_back followers_take_what_leaders_send leaders_commit_all_that_they_may "
        "answered_entries_are_committed transfers_time_out", "heals",
    ),
    watched("timers_start_again candidates_disturb_nobody lost_quorums_end_a_lead", none="clocks aren't shown"),
    watched(
        "views_stay_sound leaders_view_the_members matches_rest_on_answers members_are_counted_by_their_answers leaders_count_what_they_saved "
        "full_windows_take_no_entries", none="only comparing looks at views",
    ),
    watched(
        "pre_votes_bind_nobody pre_votes_look_at_logs later_terms_are_taken_up leaders_are_known_by_their_messages campaigns_are_of_voters "
        "proposals_are_passed_on removed_leaders_step_down leads_go_to_voters transfers_stop_proposals refusals_are_answered "
        "leaders_have_saved_their_terms",
        none="libraries have other rules, which comparing shows",
    ),
    watched(
        "configurations_agree changes_wait_for_earlier_ones changes_go_one_at_a_time leaders_know_of_changes committed_changes_take_effect "
        "joint_configurations_are_left", none="in some libraries changes count once appended",
    ),
    watched("entries_were_proposed", none="libraries add entries of their own"),
    watched("nodes_stay_sound calls_are_these events_are_only_added tests_mean_their_names", none="about these definitions"),
    watched(
        "states_are_shown_by_name messages_are_shown_by_name events_are_told reasons_are_told errors_say_what_is_wrong "
        "votes_are_refused_for_a_reason moved_messages_are_shown what_is_done_may_be_done bytes_are_ascii", none="about what raftbench reads and prints",
    ),
)
# Promises about what no law says.
WITHOUT_A_LAW = {
    "a restart keeps term and vote": "laws with restarts begin from what was saved",
    "a restart keeps saved entries": "laws with restarts begin from what was saved",
    "a restart keeps acknowledged entries": "laws with restarts begin from what was saved",
    "a read is linearizable": "only plain/node.py reads",
    "a read is answered where it was asked": "only plain/node.py reads",
    "appends keep to the size limit": "only plain/node.py limits sizes",
}
# The laws of scripts that have a name of their own.
OF_SCRIPTS = {"clusters_elect_one_leader": "elections_are_safe", "clusters_keep_logs_matching": "logs_match"}


def form_of(law: str, laws: frozenset[str]) -> str:
    """The law that a law is the same as, of scripts or with restarts; itself, if there is none."""
    short = OF_SCRIPTS.get(law, law.removesuffix("_with_restarts").removeprefix("clusters_"))
    return short if short in laws else law


def table() -> list[str]:
    """The rows of docs/NODE.md."""
    return [each.row() for each in WATCHED]
