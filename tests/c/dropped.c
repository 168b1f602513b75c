/* Calls FUNCTION, and drops its answer unless USED is defined. */
#include <hromulice.h>
#include <hromulice_text.h>

#define ARGUMENTS_hromulice_version ()
#define ARGUMENTS_hromulice_state_words ()
#define ARGUMENTS_hromulice_check (words, 9, lengths)
#define ARGUMENTS_hromulice_decode (words, 9, lengths, bytes, 24)
#define ARGUMENTS_hromulice_read_command (words, 9, bytes, 24)
#define ARGUMENTS_hromulice_write_command (bytes, 24, words, 9)
#define ARGUMENTS_hromulice_report_of (state)
#define ARGUMENTS_hromulice_ask_mount (bytes, 16, 1, 7, 1)
#define ARGUMENTS_hromulice_add_mount (bytes, 16, 0, 7, 1, 0)
#define ARGUMENTS_hromulice_mount_vector (0, 1, 2)
#define ARGUMENTS_hromulice_meaning (0)
#define ARGUMENTS_hromulice_buffer_name (0)
#define ARGUMENTS_hromulice_side_name (0)
#define CALL_OF(name) name ARGUMENTS_##name
#define CALL(name) CALL_OF(name)

#ifdef __cplusplus
#define ANY_TYPE auto
#else
#define ANY_TYPE __auto_type
#endif

void call(uint32_t *words, uint8_t *bytes, hromulice_lengths lengths, const hromulice_state *state);

void call(uint32_t *words, uint8_t *bytes, hromulice_lengths lengths, const hromulice_state *state)
{
    (void)words, (void)bytes, (void)lengths, (void)state;
#ifdef USED
    ANY_TYPE answer = CALL(FUNCTION);
    (void)answer;
#else
    CALL(FUNCTION);
#endif
}
