; ModuleID = 'parser.c'
source_filename = "parser.c"
target datalayout = "e-m:e-p270:32:32-p271:32:32-p272:64:64-i64:64-i128:128-f80:128-n8:16:32:64-S128"
target triple = "x86_64-pc-linux-gnu"

%struct.time = type { i32, i32 }

@.str = private unnamed_addr constant [3 x i8] c"5m\00", align 1, !dbg !0
@.str.1 = private unnamed_addr constant [3 x i8] c"90\00", align 1, !dbg !7
@.str.2 = private unnamed_addr constant [4 x i8] c"%d\0A\00", align 1, !dbg !9

; Function Attrs: nounwind uwtable
define dso_local i32 @main() #0 !dbg !21 {
entry:
  %retval = alloca i32, align 4
  %whole = alloca i32, align 4
  store i32 0, ptr %retval, align 4
  call void @llvm.lifetime.start.p0(i64 4, ptr %whole) #3, !dbg !27
    #dbg_declare(ptr %whole, !26, !DIExpression(), !28)
  %call = call i32 @seconds(ptr noundef @.str), !dbg !29
  %call1 = call i32 @seconds(ptr noundef @.str.1), !dbg !30
  %add = add i32 %call, %call1, !dbg !31
  store i32 %add, ptr %whole, align 4, !dbg !28, !tbaa !32
  %0 = load i32, ptr %whole, align 4, !dbg !36, !tbaa !32
  %call2 = call i32 (ptr, ...) @printf(ptr noundef @.str.2, i32 noundef %0), !dbg !37
  call void @llvm.lifetime.end.p0(i64 4, ptr %whole) #3, !dbg !38
  ret i32 0, !dbg !39
}

; Function Attrs: nocallback nofree nosync nounwind willreturn memory(argmem: readwrite)
declare void @llvm.lifetime.start.p0(i64 immarg, ptr nocapture) #1

; Function Attrs: nounwind uwtable
define internal i32 @seconds(ptr noundef %text) #0 !dbg !40 {
entry:
  %text.addr = alloca ptr, align 8
  %time = alloca %struct.time, align 4
  store ptr %text, ptr %text.addr, align 8, !tbaa !52
    #dbg_declare(ptr %text.addr, !46, !DIExpression(), !54)
  call void @llvm.lifetime.start.p0(i64 8, ptr %time) #3, !dbg !55
    #dbg_declare(ptr %time, !47, !DIExpression(), !56)
  %0 = load ptr, ptr %text.addr, align 8, !dbg !57, !tbaa !52
  call void @parse(ptr noundef %0, ptr noundef %time), !dbg !58
  %number = getelementptr inbounds %struct.time, ptr %time, i32 0, i32 0, !dbg !59
  %1 = load i32, ptr %number, align 4, !dbg !59, !tbaa !60
  %unit = getelementptr inbounds %struct.time, ptr %time, i32 0, i32 1, !dbg !62
  %2 = load i32, ptr %unit, align 4, !dbg !62, !tbaa !63
  %mul = mul i32 %1, %2, !dbg !64
  call void @llvm.lifetime.end.p0(i64 8, ptr %time) #3, !dbg !65
  ret i32 %mul, !dbg !66
}

declare !dbg !67 dso_local i32 @printf(ptr noundef, ...) #2

; Function Attrs: nocallback nofree nosync nounwind willreturn memory(argmem: readwrite)
declare void @llvm.lifetime.end.p0(i64 immarg, ptr nocapture) #1

; Function Attrs: nounwind uwtable
define internal void @parse(ptr noundef %text, ptr noundef %time) #0 !dbg !72 {
entry:
  %text.addr = alloca ptr, align 8
  %time.addr = alloca ptr, align 8
  store ptr %text, ptr %text.addr, align 8, !tbaa !52
    #dbg_declare(ptr %text.addr, !77, !DIExpression(), !79)
  store ptr %time, ptr %time.addr, align 8, !tbaa !52
    #dbg_declare(ptr %time.addr, !78, !DIExpression(), !80)
  %0 = load ptr, ptr %time.addr, align 8, !dbg !81, !tbaa !52
  %number = getelementptr inbounds %struct.time, ptr %0, i32 0, i32 0, !dbg !82
  store i32 0, ptr %number, align 4, !dbg !83, !tbaa !60
  br label %for.cond, !dbg !84

for.cond:                                         ; preds = %for.inc, %entry
  %1 = load ptr, ptr %text.addr, align 8, !dbg !85, !tbaa !52
  %2 = load i8, ptr %1, align 1, !dbg !88, !tbaa !89
  %conv = sext i8 %2 to i32, !dbg !88
  %cmp = icmp sge i32 %conv, 48, !dbg !90
  br i1 %cmp, label %land.rhs, label %land.end, !dbg !91

land.rhs:                                         ; preds = %for.cond
  %3 = load ptr, ptr %text.addr, align 8, !dbg !92, !tbaa !52
  %4 = load i8, ptr %3, align 1, !dbg !93, !tbaa !89
  %conv2 = sext i8 %4 to i32, !dbg !93
  %cmp3 = icmp sle i32 %conv2, 57, !dbg !94
  br label %land.end

land.end:                                         ; preds = %land.rhs, %for.cond
  %5 = phi i1 [ false, %for.cond ], [ %cmp3, %land.rhs ], !dbg !95
  br i1 %5, label %for.body, label %for.end, !dbg !96

for.body:                                         ; preds = %land.end
  %6 = load ptr, ptr %time.addr, align 8, !dbg !97, !tbaa !52
  %number5 = getelementptr inbounds %struct.time, ptr %6, i32 0, i32 0, !dbg !98
  %7 = load i32, ptr %number5, align 4, !dbg !98, !tbaa !60
  %mul = mul i32 %7, 10, !dbg !99
  %8 = load ptr, ptr %text.addr, align 8, !dbg !100, !tbaa !52
  %9 = load i8, ptr %8, align 1, !dbg !101, !tbaa !89
  %conv6 = sext i8 %9 to i32, !dbg !101
  %sub = sub i32 %conv6, 48, !dbg !102
  %add = add i32 %mul, %sub, !dbg !103
  %10 = load ptr, ptr %time.addr, align 8, !dbg !104, !tbaa !52
  %number7 = getelementptr inbounds %struct.time, ptr %10, i32 0, i32 0, !dbg !105
  store i32 %add, ptr %number7, align 4, !dbg !106, !tbaa !60
  br label %for.inc, !dbg !104

for.inc:                                          ; preds = %for.body
  %11 = load ptr, ptr %text.addr, align 8, !dbg !107, !tbaa !52
  %incdec.ptr = getelementptr i8, ptr %11, i32 1, !dbg !107
  store ptr %incdec.ptr, ptr %text.addr, align 8, !dbg !107, !tbaa !52
  br label %for.cond, !dbg !108, !llvm.loop !109

for.end:                                          ; preds = %land.end
  %12 = load ptr, ptr %text.addr, align 8, !dbg !113, !tbaa !52
  %13 = load i8, ptr %12, align 1, !dbg !114, !tbaa !89
  %conv8 = sext i8 %13 to i32, !dbg !114
  switch i32 %conv8, label %sw.epilog [
    i32 115, label %sw.bb
    i32 109, label %sw.bb9
    i32 104, label %sw.bb11
  ], !dbg !115

sw.bb:                                            ; preds = %for.end
  %14 = load ptr, ptr %time.addr, align 8, !dbg !116, !tbaa !52
  %unit = getelementptr inbounds %struct.time, ptr %14, i32 0, i32 1, !dbg !118
  store i32 1, ptr %unit, align 4, !dbg !119, !tbaa !63
  br label %sw.epilog, !dbg !120

sw.bb9:                                           ; preds = %for.end
  %15 = load ptr, ptr %time.addr, align 8, !dbg !121, !tbaa !52
  %unit10 = getelementptr inbounds %struct.time, ptr %15, i32 0, i32 1, !dbg !122
  store i32 60, ptr %unit10, align 4, !dbg !123, !tbaa !63
  br label %sw.epilog, !dbg !124

sw.bb11:                                          ; preds = %for.end
  %16 = load ptr, ptr %time.addr, align 8, !dbg !125, !tbaa !52
  %unit12 = getelementptr inbounds %struct.time, ptr %16, i32 0, i32 1, !dbg !126
  store i32 3600, ptr %unit12, align 4, !dbg !127, !tbaa !63
  br label %sw.epilog, !dbg !128

sw.epilog:                                        ; preds = %for.end, %sw.bb11, %sw.bb9, %sw.bb
  ret void, !dbg !129
}

attributes #0 = { nounwind uwtable "min-legal-vector-width"="0" "no-trapping-math"="true" "stack-protector-buffer-size"="8" "target-cpu"="x86-64" "target-features"="+cmov,+cx8,+fxsr,+mmx,+sse,+sse2,+x87" "tune-cpu"="generic" }
attributes #1 = { nocallback nofree nosync nounwind willreturn memory(argmem: readwrite) }
attributes #2 = { "no-trapping-math"="true" "stack-protector-buffer-size"="8" "target-cpu"="x86-64" "target-features"="+cmov,+cx8,+fxsr,+mmx,+sse,+sse2,+x87" "tune-cpu"="generic" }
attributes #3 = { nounwind }

!llvm.dbg.cu = !{!14}
!llvm.module.flags = !{!16, !17, !18, !19}
!llvm.ident = !{!20}

!0 = !DIGlobalVariableExpression(var: !1, expr: !DIExpression())
!1 = distinct !DIGlobalVariable(scope: null, file: !2, line: 33, type: !3, isLocal: true, isDefinition: true)
!2 = !DIFile(filename: "parser.c", directory: ".", checksumkind: CSK_MD5, checksum: "67eab5b84add8bb006ce163137e48e81")
!3 = !DICompositeType(tag: DW_TAG_array_type, baseType: !4, size: 24, elements: !5)
!4 = !DIBasicType(name: "char", size: 8, encoding: DW_ATE_signed_char)
!5 = !{!6}
!6 = !DISubrange(count: 3)
!7 = !DIGlobalVariableExpression(var: !8, expr: !DIExpression())
!8 = distinct !DIGlobalVariable(scope: null, file: !2, line: 33, type: !3, isLocal: true, isDefinition: true)
!9 = !DIGlobalVariableExpression(var: !10, expr: !DIExpression())
!10 = distinct !DIGlobalVariable(scope: null, file: !2, line: 34, type: !11, isLocal: true, isDefinition: true)
!11 = !DICompositeType(tag: DW_TAG_array_type, baseType: !4, size: 32, elements: !12)
!12 = !{!13}
!13 = !DISubrange(count: 4)
!14 = distinct !DICompileUnit(language: DW_LANG_C11, file: !2, producer: "Debian clang version 19.1.7 (3~deb12u1)", isOptimized: true, runtimeVersion: 0, emissionKind: FullDebug, globals: !15, splitDebugInlining: false, nameTableKind: None)
!15 = !{!0, !7, !9}
!16 = !{i32 7, !"Dwarf Version", i32 5}
!17 = !{i32 2, !"Debug Info Version", i32 3}
!18 = !{i32 1, !"wchar_size", i32 4}
!19 = !{i32 7, !"uwtable", i32 2}
!20 = !{!"Debian clang version 19.1.7 (3~deb12u1)"}
!21 = distinct !DISubprogram(name: "main", scope: !2, file: !2, line: 32, type: !22, scopeLine: 32, flags: DIFlagPrototyped | DIFlagAllCallsDescribed, spFlags: DISPFlagDefinition | DISPFlagOptimized, unit: !14, retainedNodes: !25)
!22 = !DISubroutineType(types: !23)
!23 = !{!24}
!24 = !DIBasicType(name: "int", size: 32, encoding: DW_ATE_signed)
!25 = !{!26}
!26 = !DILocalVariable(name: "whole", scope: !21, file: !2, line: 33, type: !24)
!27 = !DILocation(line: 33, column: 3, scope: !21)
!28 = !DILocation(line: 33, column: 7, scope: !21)
!29 = !DILocation(line: 33, column: 15, scope: !21)
!30 = !DILocation(line: 33, column: 31, scope: !21)
!31 = !DILocation(line: 33, column: 29, scope: !21)
!32 = !{!33, !33, i64 0}
!33 = !{!"int", !34, i64 0}
!34 = !{!"omnipotent char", !35, i64 0}
!35 = !{!"Simple C/C++ TBAA"}
!36 = !DILocation(line: 34, column: 18, scope: !21)
!37 = !DILocation(line: 34, column: 3, scope: !21)
!38 = !DILocation(line: 36, column: 1, scope: !21)
!39 = !DILocation(line: 35, column: 3, scope: !21)
!40 = distinct !DISubprogram(name: "seconds", scope: !2, file: !2, line: 26, type: !41, scopeLine: 26, flags: DIFlagPrototyped | DIFlagAllCallsDescribed, spFlags: DISPFlagLocalToUnit | DISPFlagDefinition | DISPFlagOptimized, unit: !14, retainedNodes: !45)
!41 = !DISubroutineType(types: !42)
!42 = !{!24, !43}
!43 = !DIDerivedType(tag: DW_TAG_pointer_type, baseType: !44, size: 64)
!44 = !DIDerivedType(tag: DW_TAG_const_type, baseType: !4)
!45 = !{!46, !47}
!46 = !DILocalVariable(name: "text", arg: 1, scope: !40, file: !2, line: 26, type: !43)
!47 = !DILocalVariable(name: "time", scope: !40, file: !2, line: 27, type: !48)
!48 = distinct !DICompositeType(tag: DW_TAG_structure_type, name: "time", file: !2, line: 4, size: 64, elements: !49)
!49 = !{!50, !51}
!50 = !DIDerivedType(tag: DW_TAG_member, name: "number", scope: !48, file: !2, line: 5, baseType: !24, size: 32)
!51 = !DIDerivedType(tag: DW_TAG_member, name: "unit", scope: !48, file: !2, line: 6, baseType: !24, size: 32, offset: 32)
!52 = !{!53, !53, i64 0}
!53 = !{!"any pointer", !34, i64 0}
!54 = !DILocation(line: 26, column: 32, scope: !40)
!55 = !DILocation(line: 27, column: 3, scope: !40)
!56 = !DILocation(line: 27, column: 15, scope: !40)
!57 = !DILocation(line: 28, column: 9, scope: !40)
!58 = !DILocation(line: 28, column: 3, scope: !40)
!59 = !DILocation(line: 29, column: 15, scope: !40)
!60 = !{!61, !33, i64 0}
!61 = !{!"time", !33, i64 0, !33, i64 4}
!62 = !DILocation(line: 29, column: 29, scope: !40)
!63 = !{!61, !33, i64 4}
!64 = !DILocation(line: 29, column: 22, scope: !40)
!65 = !DILocation(line: 30, column: 1, scope: !40)
!66 = !DILocation(line: 29, column: 3, scope: !40)
!67 = !DISubprogram(name: "printf", scope: !68, file: !68, line: 356, type: !69, flags: DIFlagPrototyped, spFlags: DISPFlagOptimized)
!68 = !DIFile(filename: "/usr/include/stdio.h", directory: "", checksumkind: CSK_MD5, checksum: "b5a90985555f47bfb88eff5a8f0f5b72")
!69 = !DISubroutineType(types: !70)
!70 = !{!24, !71, null}
!71 = !DIDerivedType(tag: DW_TAG_restrict_type, baseType: !43)
!72 = distinct !DISubprogram(name: "parse", scope: !2, file: !2, line: 9, type: !73, scopeLine: 9, flags: DIFlagPrototyped | DIFlagAllCallsDescribed, spFlags: DISPFlagLocalToUnit | DISPFlagDefinition | DISPFlagOptimized, unit: !14, retainedNodes: !76)
!73 = !DISubroutineType(types: !74)
!74 = !{null, !43, !75}
!75 = !DIDerivedType(tag: DW_TAG_pointer_type, baseType: !48, size: 64)
!76 = !{!77, !78}
!77 = !DILocalVariable(name: "text", arg: 1, scope: !72, file: !2, line: 9, type: !43)
!78 = !DILocalVariable(name: "time", arg: 2, scope: !72, file: !2, line: 9, type: !75)
!79 = !DILocation(line: 9, column: 31, scope: !72)
!80 = !DILocation(line: 9, column: 50, scope: !72)
!81 = !DILocation(line: 10, column: 3, scope: !72)
!82 = !DILocation(line: 10, column: 9, scope: !72)
!83 = !DILocation(line: 10, column: 16, scope: !72)
!84 = !DILocation(line: 11, column: 3, scope: !72)
!85 = !DILocation(line: 11, column: 11, scope: !86)
!86 = distinct !DILexicalBlock(scope: !87, file: !2, line: 11, column: 3)
!87 = distinct !DILexicalBlock(scope: !72, file: !2, line: 11, column: 3)
!88 = !DILocation(line: 11, column: 10, scope: !86)
!89 = !{!34, !34, i64 0}
!90 = !DILocation(line: 11, column: 16, scope: !86)
!91 = !DILocation(line: 11, column: 23, scope: !86)
!92 = !DILocation(line: 11, column: 27, scope: !86)
!93 = !DILocation(line: 11, column: 26, scope: !86)
!94 = !DILocation(line: 11, column: 32, scope: !86)
!95 = !DILocation(line: 0, scope: !86)
!96 = !DILocation(line: 11, column: 3, scope: !87)
!97 = !DILocation(line: 12, column: 20, scope: !86)
!98 = !DILocation(line: 12, column: 26, scope: !86)
!99 = !DILocation(line: 12, column: 33, scope: !86)
!100 = !DILocation(line: 12, column: 42, scope: !86)
!101 = !DILocation(line: 12, column: 41, scope: !86)
!102 = !DILocation(line: 12, column: 47, scope: !86)
!103 = !DILocation(line: 12, column: 38, scope: !86)
!104 = !DILocation(line: 12, column: 5, scope: !86)
!105 = !DILocation(line: 12, column: 11, scope: !86)
!106 = !DILocation(line: 12, column: 18, scope: !86)
!107 = !DILocation(line: 11, column: 44, scope: !86)
!108 = !DILocation(line: 11, column: 3, scope: !86)
!109 = distinct !{!109, !96, !110, !111, !112}
!110 = !DILocation(line: 12, column: 52, scope: !87)
!111 = !{!"llvm.loop.mustprogress"}
!112 = !{!"llvm.loop.unroll.disable"}
!113 = !DILocation(line: 13, column: 12, scope: !72)
!114 = !DILocation(line: 13, column: 11, scope: !72)
!115 = !DILocation(line: 13, column: 3, scope: !72)
!116 = !DILocation(line: 15, column: 5, scope: !117)
!117 = distinct !DILexicalBlock(scope: !72, file: !2, line: 13, column: 18)
!118 = !DILocation(line: 15, column: 11, scope: !117)
!119 = !DILocation(line: 15, column: 16, scope: !117)
!120 = !DILocation(line: 16, column: 5, scope: !117)
!121 = !DILocation(line: 18, column: 5, scope: !117)
!122 = !DILocation(line: 18, column: 11, scope: !117)
!123 = !DILocation(line: 18, column: 16, scope: !117)
!124 = !DILocation(line: 19, column: 5, scope: !117)
!125 = !DILocation(line: 21, column: 5, scope: !117)
!126 = !DILocation(line: 21, column: 11, scope: !117)
!127 = !DILocation(line: 21, column: 16, scope: !117)
!128 = !DILocation(line: 22, column: 5, scope: !117)
!129 = !DILocation(line: 24, column: 1, scope: !72)
