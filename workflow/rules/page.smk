# The page of all samples. No rule makes it: a rule that needs every sample isn't run if one sample fails. So each run ends
# by making it, whether all went well or not, and the page names the samples that are there and those that aren't.


onsuccess:
    if not make_page():
        raise WorkflowError("the samples are trimmed, but the page could not be made")


onerror:
    make_page()
