"""The capabilities of the adapter, as the response to `initialize` reports them."""

FAILED = "failed"

CAPABILITIES = {
    "supportsConfigurationDoneRequest": True,
    "supportsFunctionBreakpoints": True,
    "supportsConditionalBreakpoints": True,
    "supportsHitConditionalBreakpoints": True,
    "supportsLogPoints": True,
    "supportsBreakpointLocationsRequest": True,
    "supportsDataBreakpoints": True,
    "supportsCompletionsRequest": True,
    "completionTriggerCharacters": [" ", "/", ":"],
    "supportsEvaluateForHovers": True,
    "supportsStepBack": True,
    "supportsExceptionInfoRequest": True,
    "supportsLoadedSourcesRequest": True,
    "supportsRestartRequest": True,
    "supportsTerminateRequest": True,
    "exceptionBreakpointFilters": [
        {
            "filter": FAILED,
            "label": "a vertex fails",
            "description": "Stops after the settle of a vertex that failed.",
            "default": True,
        }
    ],
}
