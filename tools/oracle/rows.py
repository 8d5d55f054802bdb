"""All built-in functions that evaluate or read a state, and what guards use."""
import rows_control
import rows_define
import rows_state
from rows_define import function_applied, in_block, module_body, with_body

ROWS = {**rows_control.ROWS, **rows_define.ROWS, **rows_state.ROWS}
