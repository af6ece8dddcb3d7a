"""The directory that is prepared for the workflow."""

import pytest

from tibzharuk import workflow


@pytest.fixture
def root(tmp_path, monkeypatch):
    """A workflow as it is installed."""
    found = tmp_path / "share it"
    for name in "workflow/Snakefile", "config/config.yaml", "config/samples.tsv":
        (found / name).parent.mkdir(parents=True, exist_ok=True)
        (found / name).write_text(name, encoding="utf-8")
    monkeypatch.setattr(workflow, "ROOT", str(found))
    monkeypatch.chdir(tmp_path)
    return found


@pytest.mark.parametrize("folder", ("lab", "a/b c", "."))
def test_a_directory_gets_settings_and_calls(folder, root, tmp_path, capfd):
    assert workflow.main([folder]) == 0
    for name in workflow.FILES:
        assert (tmp_path / folder / "config" / name).read_text("utf-8") == f"config/{name}"
    said = capfd.readouterr().out
    call = f"snakemake --snakefile '{root}/workflow/Snakefile' --profile '{root}/profiles/local'"
    assert f"    {call} -n\n    {call}\n" in said
    assert f"    cd {folder}\n" in said or f"    cd '{folder}'\n" in said


@pytest.mark.parametrize("before, line", (
    ("lab/config/samples.tsv", "lab/config/samples.tsv is there already"),
    ("lab/config/config.yaml", "lab/config/config.yaml is there already"),
    ("lab/config", "cannot write lab/config: File exists"),
))
def test_nothing_is_overwritten(before, line, root, tmp_path, capfd):
    (tmp_path / before).parent.mkdir(parents=True)
    (tmp_path / before).write_text("mine", encoding="utf-8")
    assert workflow.main(["lab"]) == 1
    assert capfd.readouterr().err == f"tibzharuk workflow: {line}\n"
    assert [path.read_text("utf-8") for path in (tmp_path / "lab").rglob("*") if path.is_file()] \
        == ["mine"]


@pytest.mark.parametrize("gone", ("workflow/Snakefile", "config/config.yaml"))
def test_it_must_be_installed(gone, root, tmp_path, capfd):
    (root / gone).unlink()
    assert workflow.main(["lab"]) == 1
    line = f"the workflow isn't below {root}, where it would be installed"
    assert capfd.readouterr().err == f"tibzharuk workflow: {line}\n"
    assert not (tmp_path / "lab").exists()
